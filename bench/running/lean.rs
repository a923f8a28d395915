//! The works of `bench/running` as lean as plain Rust gets them with the same report: `std` alone,
//! threads and the standard channel.
//!
//!     lean WORK COUNT
//!
//! It carries out the work with so many messages, and prints what `tpr run` prints of its script. It
//! is `plain.rs` without all that the report doesn't need:
//!
//! - A message is never copied. The sender's history and the receiver share its text, what comes is
//!   moved to the queue of its port and from there into the history, and who receives it borrows it
//!   there.
//! - What came has no entry in a history, and no connection has a ledger: each is a count. That no
//!   message was lost is tested by these: on each connection the numbers come one after the other,
//!   and as many as were sent.
//! - Lines are put together of bytes, and not formatted; what was recorded isn't dropped in the end.
//!
//! So it would not notice a message that came with another content than it was sent with.

mod components;
mod works;

use std::io::{self, BufWriter, Write};
use std::mem;
use std::process::ExitCode;
use std::sync::Arc;

use components::{run, Arrival, Component, Desk, Ended, Envelope, Place, Report, Verdict, Waits};

/// How many messages were sent on a connection.
type Sent = u64;

/// A connection into a component, seen from there.
struct Way {
    sender: usize,
    port: usize,
    /// How many messages came on it, one after the other by their numbers.
    came: u64,
    /// Whether one came that was not the next.
    broken: bool,
}

impl Way {
    fn new(sender: usize, port: usize) -> Way {
        Way {
            sender,
            port,
            came: 0,
            broken: false,
        }
    }
}

#[derive(Clone)]
enum Message {
    Integer(i64),
    Order(Order),
}

#[derive(Clone)]
struct Order {
    id: i64,
    item: Arc<str>,
}

/// Writes a number in decimal digits.
fn write_number(number: i64, out: &mut impl Write) -> io::Result<()> {
    let mut digits = [0; 20];
    let mut first = digits.len();
    let mut rest = number.unsigned_abs();
    loop {
        first -= 1;
        digits[first] = b'0' + (rest % 10) as u8;
        rest /= 10;
        if rest == 0 {
            break;
        }
    }
    if number < 0 {
        first -= 1;
        digits[first] = b'-';
    }
    out.write_all(&digits[first..])
}

impl Message {
    fn write(&self, out: &mut impl Write) -> io::Result<()> {
        match self {
            Message::Integer(number) => {
                out.write_all(b"integer:")?;
                write_number(*number, out)
            }
            Message::Order(Order { id, item }) => {
                out.write_all(b"Order:{id := ")?;
                write_number(*id, out)?;
                out.write_all(b", item := \"")?;
                for (place, part) in item.split('"').enumerate() {
                    out.write_all(if place == 0 { b"" } else { b"\"\"" })?;
                    out.write_all(part.as_bytes())?;
                }
                out.write_all(b"\"}")
            }
        }
    }
}

/// One thing that happened at a component.
enum Entry {
    Sent(Place, u64, Message),
    /// It was taken at this port.
    Took(usize, Arrival),
    Set(Verdict),
}

impl Desk {
    fn arrive(&mut self, envelope: Envelope) {
        let way = &mut self.ways[envelope.way];
        way.broken |= envelope.number != way.came;
        way.came += 1;
        self.ports[way.port].1.push_back(Arrival {
            sender: way.sender,
            number: envelope.number,
            message: envelope.message,
        });
    }

    /// Takes the top message of a port, where it is wanted, into the history.
    fn take(&mut self, port: usize, wanted: impl Fn(&Message) -> bool) -> bool {
        let queue = &mut self.ports[port].1;
        if !queue.front().is_some_and(|top| wanted(&top.message)) {
            return false;
        }
        let arrival = queue.pop_front().expect("it has a top");
        self.history.push(Entry::Took(port, arrival));
        true
    }
}

impl Component {
    /// Sends on the only connection from this port.
    fn send(&mut self, port: usize, message: Message) {
        let (outlet, history) = self.outlet(port);
        let number = outlet.sent;
        outlet.sent += 1;
        history.push(Entry::Sent(outlet.to, number, message.clone()));
        outlet.pass(number, message);
    }

    /// Waits until the top message of this port is wanted, and takes it.
    fn receive(&mut self, port: usize, wanted: impl Fn(&Message) -> bool) -> Result<(), Waits> {
        loop {
            self.desk.drain();
            if self.desk.take(port, &wanted) {
                return Ok(());
            }
            let envelope = self.desk.inbox.recv().map_err(|_| Waits)?;
            self.desk.arrive(envelope);
        }
    }
}

/// Whether on each connection as many messages came as were sent, in the order of their numbers.
fn is_delivered(all: &[Ended]) -> bool {
    let mut sent = all.iter().flat_map(|ended| &ended.sent);
    sent.all(|(to, way, count)| {
        let way = &all[to.component].desk.ways[*way];
        way.came == *count && !way.broken
    })
}

impl Report<'_> {
    /// The end of a line: a message behind its number.
    fn write_message(number: u64, message: &Message, out: &mut impl Write) -> io::Result<()> {
        out.write_all(b" ")?;
        write_number(number as i64, out)?;
        out.write_all(b" ")?;
        message.write(out)?;
        out.write_all(b"\n")
    }

    fn write_arrival(
        &self,
        word: &str,
        port: &str,
        arrival: &Arrival,
        out: &mut impl Write,
    ) -> io::Result<()> {
        out.write_all(word.as_bytes())?;
        out.write_all(port.as_bytes())?;
        out.write_all(b" ")?;
        out.write_all(self.all[arrival.sender].desk.name.as_bytes())?;
        Self::write_message(arrival.number, &arrival.message, out)
    }

    fn write_sending(
        &self,
        to: Place,
        number: u64,
        message: &Message,
        out: &mut impl Write,
    ) -> io::Result<()> {
        let receiver = &self.all[to.component].desk;
        out.write_all(b"sent ")?;
        out.write_all(receiver.name.as_bytes())?;
        out.write_all(b".")?;
        out.write_all(receiver.ports[to.port].0.as_bytes())?;
        Self::write_message(number, message, out)
    }

    fn write_entry(&self, desk: &Desk, entry: &Entry, out: &mut impl Write) -> io::Result<()> {
        match entry {
            Entry::Sent(to, number, message) => self.write_sending(*to, *number, message, out),
            Entry::Took(port, arrival) => {
                self.write_arrival("took ", &desk.ports[*port].0, arrival, out)
            }
            Entry::Set(verdict) => writeln!(out, "set {verdict}"),
        }
    }
}

fn main() -> ExitCode {
    let all = match run("lean", is_delivered) {
        Ok(all) => all,
        Err(status) => return status,
    };
    let mut out = BufWriter::new(io::stdout().lock());
    let written = (Report { all: &all }).write(&mut out);
    mem::forget(all);
    match written {
        Ok(()) => ExitCode::SUCCESS,
        Err(_) => ExitCode::from(3),
    }
}
