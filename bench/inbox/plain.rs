//! The job of `main.rattle` in plain Rust: the standard channel in place of the inbox, and the same
//! copies. A sender keeps what it has put; the owner keeps what came in the component's history, in
//! the port's history and in the port's queue.
#![allow(dead_code)]

use std::collections::VecDeque;
use std::sync::mpsc::{channel, Receiver, Sender};
use std::thread;

const ON_ONE: u64 = 100_000;
const IN_ALL: u64 = 320_000;

#[derive(Clone, Copy)]
enum Ty {
    Integer,
    Boolean,
    Named(u32),
}

#[derive(Clone)]
enum Value {
    Int(i64),
    Bool(bool),
    Text(Vec<u8>),
    Record(Vec<Value>),
    List(Vec<Value>),
}

#[derive(Clone)]
struct Message {
    ty: Ty,
    value: Value,
}

struct Envelope {
    place: usize,
    number: u64,
    message: Message,
}

#[derive(Clone)]
struct Env {
    sender: u32,
    number: u64,
    message: Message,
}

enum Entry {
    Arrive(u32, Env),
    Took(u32, Env, u32),
    Sent(u32, u64, Message),
    Else,
}

enum Event {
    Arrive(Env),
    Took(Env),
    Cleared,
}

#[derive(Default)]
struct Desk {
    log: Vec<Entry>,
    events: Vec<Event>,
    queue: VecDeque<Env>,
}

fn put_all(place: usize, line: Sender<Envelope>, count: u64) -> usize {
    let mut ledger = Vec::new();
    for number in 0..count {
        let message = Message {
            ty: Ty::Integer,
            value: Value::Int(number as i64),
        };
        let envelope = Envelope {
            place,
            number,
            message: message.clone(),
        };
        if line.send(envelope).is_err() {
            return ledger.len();
        }
        ledger.push(message);
    }
    ledger.len()
}

fn drain_all(line: &Receiver<Envelope>, desk: &mut Desk, counts: &mut [u64], count: u64) -> u64 {
    let mut came = 0;
    while came < count {
        let Ok(envelope) = line.recv() else {
            break;
        };
        let env = Env {
            sender: envelope.place as u32 + 1,
            number: envelope.number,
            message: envelope.message,
        };
        counts[envelope.place] = env.number + 1;
        desk.log.push(Entry::Arrive(0, env.clone()));
        desk.events.push(Event::Arrive(env.clone()));
        desk.queue.push_back(env);
        came += 1;
    }
    came
}

fn main() {
    let words: Vec<String> = std::env::args().collect();
    let senders: u64 = words.get(2).and_then(|word| word.parse().ok()).unwrap_or(1);
    let each = ON_ONE.min(IN_ALL / senders.max(1));
    let (to, from) = channel();
    let mut desk = Desk::default();
    let mut counts = vec![0; senders as usize];
    let children: Vec<_> = (0..senders as usize)
        .map(|place| {
            let to = to.clone();
            thread::spawn(move || put_all(place, to, each))
        })
        .collect();
    let came = drain_all(&from, &mut desk, &mut counts, each * senders);
    for child in children {
        child.join().expect("the thread ends");
    }
    println!("{came}");
}
