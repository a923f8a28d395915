//! The works of `bench/running` as plain Rust, with `std` alone: threads and the standard channel.
//!
//!     plain WORK COUNT
//!
//! It carries out the work with so many messages, and prints what `tpr run` prints of its script.
//!
//! Its design is that of an engineer who needs these tests with their reports, and nothing else:
//!
//! - A behaviour is a closure over its component, compiled with the program. No script is read.
//! - Each component has a thread and one channel, which all who send to it share.
//! - To receive is to move what has come from the channel to the queues of the ports, and to look at
//!   the top of a port. Where that isn't wanted the component blocks at the channel.
//! - The records are those of a run of `tpr`: for each connection the ledger of what was sent on it,
//!   for each component a history of what it sent, what came and what it took, for each port its
//!   queue. A message is copied for each; to the receiver it is moved.
//! - In the end each ledger is compared with what came on its connection, message by message. That a
//!   report never calls sent what was lost is here tested in each run, where `tpr` has it proved.
//!
//! What it lacks: `halt`, `stop` and `clear`, an `alt`, templates as data. It notices a behaviour that
//! waits in vain only where nobody is left who could send to it. A refused allocation ends it.

mod components;
mod works;

use std::fmt;
use std::io::{self, BufWriter, Write};
use std::process::ExitCode;

use components::{run, Arrival, Component, Desk, Ended, Envelope, Place, Report, Verdict, Waits};

/// The ledger of a connection: what was sent on it.
type Sent = Vec<Message>;

/// A connection into a component, seen from there.
struct Way {
    sender: usize,
    port: usize,
}

impl Way {
    fn new(sender: usize, port: usize) -> Way {
        Way { sender, port }
    }
}

#[derive(Clone, PartialEq)]
enum Message {
    Integer(i64),
    Order(Order),
}

#[derive(Clone, PartialEq)]
struct Order {
    id: i64,
    item: String,
}

impl fmt::Display for Message {
    fn fmt(&self, out: &mut fmt::Formatter<'_>) -> fmt::Result {
        match self {
            Message::Integer(number) => write!(out, "integer:{number}"),
            Message::Order(Order { id, item }) => {
                let item = item.replace('"', "\"\"");
                write!(out, "Order:{{id := {id}, item := \"{item}\"}}")
            }
        }
    }
}

/// One thing that happened at a component.
enum Entry {
    Sent(Place, u64, Message),
    /// It came on this connection.
    Arrived(usize, Arrival),
    /// It was taken at this port.
    Took(usize, Arrival),
    Set(Verdict),
}

impl Desk {
    fn arrive(&mut self, envelope: Envelope) {
        let way = &self.ways[envelope.way];
        let arrival = Arrival {
            sender: way.sender,
            number: envelope.number,
            message: envelope.message,
        };
        self.history
            .push(Entry::Arrived(envelope.way, arrival.clone()));
        self.ports[way.port].1.push_back(arrival);
    }

    /// Takes the top message of a port, where it is wanted.
    fn take(&mut self, port: usize, wanted: impl Fn(&Message) -> bool) -> Option<Arrival> {
        let queue = &mut self.ports[port].1;
        if !wanted(&queue.front()?.message) {
            return None;
        }
        let arrival = queue.pop_front()?;
        self.history.push(Entry::Took(port, arrival.clone()));
        Some(arrival)
    }
}

impl Component {
    /// Sends on the only connection from this port.
    fn send(&mut self, port: usize, message: Message) {
        let (outlet, history) = self.outlet(port);
        let number = outlet.sent.len() as u64;
        outlet.sent.push(message.clone());
        history.push(Entry::Sent(outlet.to, number, message.clone()));
        outlet.pass(number, message);
    }

    /// Waits until the top message of this port is wanted, and takes it.
    fn receive(
        &mut self,
        port: usize,
        wanted: impl Fn(&Message) -> bool,
    ) -> Result<Arrival, Waits> {
        loop {
            self.desk.drain();
            if let Some(arrival) = self.desk.take(port, &wanted) {
                return Ok(arrival);
            }
            let envelope = self.desk.inbox.recv().map_err(|_| Waits)?;
            self.desk.arrive(envelope);
        }
    }
}

/// Whether this history has, of each connection into its component, what its ledger has, in that order.
fn has_received(history: &[Entry], ledgers: &[&[Message]]) -> bool {
    let mut awaited: Vec<_> = ledgers.iter().map(|ledger| (0..).zip(*ledger)).collect();
    for entry in history {
        if let Entry::Arrived(way, arrival) = entry {
            if awaited[*way].next() != Some((arrival.number, &arrival.message)) {
                return false;
            }
        }
    }
    awaited.iter_mut().all(|rest| rest.next().is_none())
}

/// Whether on each connection exactly what was sent came, in that order.
fn is_delivered(all: &[Ended]) -> bool {
    let empty = |ended: &Ended| vec![&[][..]; ended.desk.ways.len()];
    let mut ledgers: Vec<Vec<&[Message]>> = all.iter().map(empty).collect();
    for (to, way, ledger) in all.iter().flat_map(|ended| &ended.sent) {
        ledgers[to.component][*way] = ledger;
    }
    let mut each = all.iter().zip(&ledgers);
    each.all(|(ended, ledgers)| has_received(&ended.desk.history, ledgers))
}

impl Report<'_> {
    fn write_arrival(
        &self,
        word: &str,
        port: &str,
        arrival: &Arrival,
        out: &mut impl Write,
    ) -> io::Result<()> {
        let Arrival {
            sender,
            number,
            message,
        } = arrival;
        let sender = &self.all[*sender].desk.name;
        writeln!(out, "{word}{port} {sender} {number} {message}")
    }

    fn write_entry(&self, desk: &Desk, entry: &Entry, out: &mut impl Write) -> io::Result<()> {
        match entry {
            Entry::Sent(to, number, message) => {
                let receiver = &self.all[to.component].desk;
                let (name, (port, _)) = (&receiver.name, &receiver.ports[to.port]);
                writeln!(out, "sent {name}.{port} {number} {message}")
            }
            Entry::Arrived(..) => Ok(()),
            Entry::Took(port, arrival) => {
                self.write_arrival("took ", &desk.ports[*port].0, arrival, out)
            }
            Entry::Set(verdict) => writeln!(out, "set {verdict}"),
        }
    }
}

fn main() -> ExitCode {
    let all = match run("plain", is_delivered) {
        Ok(all) => all,
        Err(status) => return status,
    };
    let mut out = BufWriter::new(io::stdout().lock());
    match (Report { all: &all }).write(&mut out) {
        Ok(()) => ExitCode::SUCCESS,
        Err(_) => ExitCode::from(3),
    }
}
