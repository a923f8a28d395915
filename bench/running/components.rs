//! What both plain programs have in common: components with ports, a thread and a channel each, and the report.
//! Each program says for itself what a message is, what it keeps of what came and was sent, and how it writes.

use std::collections::VecDeque;
use std::env;
use std::fmt;
use std::io::{self, Write};
use std::process::ExitCode;
use std::sync::mpsc::{channel, Receiver, Sender};
use std::thread;

use crate::{works, Entry, Message, Sent, Way};

/// Components and ports are numbered in the order in which they were made.
#[derive(Clone, Copy)]
pub struct Place {
    pub component: usize,
    pub port: usize,
}

/// A message on its way.
pub struct Envelope {
    /// Its connection, by its place among those into the component.
    pub way: usize,
    /// Its number on this connection, from 0.
    pub number: u64,
    pub message: Message,
}

/// A message that came, at its port.
#[derive(Clone)]
pub struct Arrival {
    pub sender: usize,
    pub number: u64,
    pub message: Message,
}

#[derive(Clone, Copy, PartialEq, Eq, PartialOrd, Ord)]
pub enum Verdict {
    None,
    Pass,
    Error,
}

impl fmt::Display for Verdict {
    fn fmt(&self, out: &mut fmt::Formatter<'_>) -> fmt::Result {
        out.write_str(match self {
            Verdict::None => "none",
            Verdict::Pass => "pass",
            Verdict::Error => "error",
        })
    }
}

/// A connection from a component, seen from there.
pub struct Outlet {
    pub to: Place,
    way: usize,
    line: Sender<Envelope>,
    pub sent: Sent,
}

impl Outlet {
    pub fn pass(&self, number: u64, message: Message) {
        let envelope = Envelope {
            way: self.way,
            number,
            message,
        };
        self.line
            .send(envelope)
            .expect("the inboxes outlive the behaviours");
    }
}

/// The ports of a component, what leads there, and its history.
pub struct Desk {
    pub name: String,
    pub ports: Vec<(String, VecDeque<Arrival>)>,
    pub inbox: Receiver<Envelope>,
    pub ways: Vec<Way>,
    pub history: Vec<Entry>,
}

impl Desk {
    /// Moves what has come to the ports.
    pub fn drain(&mut self) {
        while let Ok(envelope) = self.inbox.try_recv() {
            self.arrive(envelope);
        }
    }
}

/// What ends a behaviour before its last statement: nobody is left who could send to it.
pub struct Waits;

pub type Body = Box<dyn FnOnce(&mut Component) -> Result<(), Waits> + Send>;

pub struct Component {
    pub desk: Desk,
    /// The connections from each port.
    pub outlets: Vec<Vec<Outlet>>,
    pub verdict: Verdict,
}

impl Component {
    /// The only connection from this port, and the history of the component.
    pub fn outlet(&mut self, port: usize) -> (&mut Outlet, &mut Vec<Entry>) {
        let [outlet] = self.outlets[port].as_mut_slice() else {
            panic!("a port that sends has one connection");
        };
        (outlet, &mut self.desk.history)
    }

    pub fn set_verdict(&mut self, verdict: Verdict) {
        self.desk.history.push(Entry::Set(verdict));
        self.verdict = self.verdict.max(verdict);
    }

    /// Carries out the behaviour. Then the lines to the other components are closed.
    fn live(mut self, body: Body) -> Ended {
        let ending = body(&mut self);
        let outlets = self.outlets.into_iter().flatten();
        Ended {
            desk: self.desk,
            sent: outlets
                .map(|outlet| (outlet.to, outlet.way, outlet.sent))
                .collect(),
            verdict: self.verdict,
            waits: ending.is_err(),
        }
    }
}

pub struct Ended {
    pub desk: Desk,
    /// Of each connection what was sent on it.
    pub sent: Vec<(Place, usize, Sent)>,
    pub verdict: Verdict,
    pub waits: bool,
}

/// A test: its components, with what each does.
#[derive(Default)]
pub struct Test {
    pub components: Vec<(Component, Body)>,
    /// The sending end of each component's channel.
    pub lines: Vec<Sender<Envelope>>,
}

impl Test {
    pub fn add<B>(&mut self, name: &str, ports: &[&str], body: B) -> usize
    where
        B: FnOnce(&mut Component) -> Result<(), Waits> + Send + 'static,
    {
        let (line, inbox) = channel();
        let component = Component {
            desk: Desk {
                name: name.to_string(),
                ports: ports
                    .iter()
                    .map(|port| (port.to_string(), VecDeque::new()))
                    .collect(),
                inbox,
                ways: Vec::new(),
                history: Vec::new(),
            },
            outlets: ports.iter().map(|_| Vec::new()).collect(),
            verdict: Verdict::None,
        };
        self.lines.push(line);
        self.components.push((component, Box::new(body)));
        self.components.len() - 1
    }

    fn lead(&mut self, from: Place, to: Place) {
        let ways = &mut self.components[to.component].0.desk.ways;
        let way = ways.len();
        ways.push(Way::new(from.component, to.port));
        let outlet = Outlet {
            to,
            way,
            line: self.lines[to.component].clone(),
            sent: Sent::default(),
        };
        self.components[from.component].0.outlets[from.port].push(outlet);
    }

    pub fn connect(&mut self, one: (usize, usize), other: (usize, usize)) {
        let place = |(component, port)| Place { component, port };
        self.lead(place(one), place(other));
        self.lead(place(other), place(one));
    }

    /// Starts a thread for each component, waits for all, and moves what is still on its way to the
    /// ports.
    fn run(self) -> Vec<Ended> {
        drop(self.lines);
        let handles: Vec<_> = self
            .components
            .into_iter()
            .map(|(component, body)| thread::spawn(move || component.live(body)))
            .collect();
        let join = |handle: thread::JoinHandle<Ended>| handle.join().expect("no behaviour panics");
        let mut all: Vec<Ended> = handles.into_iter().map(join).collect();
        for ended in &mut all {
            ended.desk.drain();
        }
        all
    }
}

pub struct Report<'r> {
    pub all: &'r [Ended],
}

impl Report<'_> {
    fn write_component(&self, ended: &Ended, out: &mut impl Write) -> io::Result<()> {
        let desk = &ended.desk;
        writeln!(out, "component {}", desk.name)?;
        for entry in &desk.history {
            self.write_entry(desk, entry, out)?;
        }
        let ending = if ended.waits { "waiting" } else { "done" };
        writeln!(out, "end {ending}\nverdict {}", ended.verdict)?;
        for (port, queue) in &desk.ports {
            for arrival in queue {
                self.write_arrival("left ", port, arrival, out)?;
            }
        }
        Ok(())
    }

    pub fn write(&self, out: &mut impl Write) -> io::Result<()> {
        let mut result = Verdict::None;
        for ended in self.all {
            self.write_component(ended, out)?;
            let verdict = if ended.waits {
                Verdict::Error
            } else {
                ended.verdict
            };
            result = result.max(verdict);
        }
        writeln!(out, "result {result}")?;
        out.flush()
    }
}

/// The test that the command line names, or the status where it names none.
fn asked(program: &str) -> Result<Test, ExitCode> {
    let words: Vec<String> = env::args().skip(1).collect();
    let [work, count] = words.as_slice() else {
        eprintln!("usage: {program} WORK COUNT");
        return Err(ExitCode::from(4));
    };
    let test = count
        .parse()
        .ok()
        .and_then(|count| works::make(work, count));
    test.ok_or_else(|| {
        eprintln!("{program}: no such work");
        ExitCode::from(2)
    })
}

/// Runs it, and what became of its components; the status where a message was lost.
pub fn run(program: &str, is_delivered: fn(&[Ended]) -> bool) -> Result<Vec<Ended>, ExitCode> {
    let all = asked(program)?.run();
    if !is_delivered(&all) {
        eprintln!("{program}: a message was lost");
        return Err(ExitCode::from(3));
    }
    Ok(all)
}
