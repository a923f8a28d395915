//! `tpr judge` as plain Rust, with nothing of it proved: `std` alone, written from docs/TRACES.md.
//!
//!     plain FILE
//!
//! It reads the trace and prints what `tpr judge` prints of it. Names and messages get numbers by a
//! hash table each. Ports are replayed while the text is read, so that of a line is kept what the
//! orders need.

mod orders;
mod ports;
mod reading;
mod routes;

use orders::{delayed, on_a_circle};
use ports::Port;
use reading::{read, Fate, Line, Message};
use routes::Route;
use std::collections::HashMap;
use std::env;
use std::fmt::{self, Display};
use std::fs;
use std::hash::Hash;
use std::io::{self, BufWriter, Write};
use std::process::ExitCode;

const LIMIT: usize = 268_435_456;

/// A rule, in the order in which they are told of one line.
#[derive(Clone, Copy, Debug, PartialEq, Eq, PartialOrd, Ord)]
enum Rule {
    Stopped,
    Behind,
    NotTop,
    Left,
    Numbering,
    Lost,
    Doubled,
    Invented,
    Changed,
    Reordered,
    Circle,
}

/// Where a trace isn't lawful.
#[derive(Clone, Copy, PartialEq, Eq, PartialOrd, Ord)]
struct Place {
    line: u32,
    rule: Rule,
}

/// A message on its route: its number there and the number of its text.
#[derive(Clone, Copy, PartialEq, Eq, Hash)]
struct Parcel {
    number: u64,
    text: u32,
}

/// Numbers for what is seen, from 0 by first sight.
struct Numbers<K>(HashMap<K, u32>);

impl<K: Eq + Hash> Numbers<K> {
    fn new() -> Self {
        Numbers(HashMap::new())
    }

    fn of(&mut self, key: K) -> u32 {
        let next = self.0.len() as u32;
        *self.0.entry(key).or_insert(next)
    }
}

/// What a line is for the order of a run.
#[derive(Clone, Copy, PartialEq, Eq)]
enum Act {
    Sent,
    /// On this route, as the message of this place.
    Came(u32, u32),
    Left,
    Looked,
    Other,
}

/// A line of a section, which is the component's of this number.
#[derive(Clone, Copy)]
struct Noted {
    component: u32,
    act: Act,
}

struct Component {
    has_section: bool,
    /// The line of its first `end`, else of its last `left`.
    closed: Option<u32>,
    has_ended: bool,
}

/// What the lines so far come to.
struct Judge<'t> {
    names: Numbers<&'t [u8]>,
    port_names: Numbers<(u32, &'t [u8])>,
    texts: Numbers<&'t [u8]>,
    route_names: Numbers<(u32, u32)>,
    components: Vec<Component>,
    owners: Vec<u32>,
    ports: Vec<Port>,
    routes: Vec<Route>,
    /// What each line of the text says; none of a line that is in no section.
    lines: Vec<Option<Noted>>,
}

impl<'t> Judge<'t> {
    fn new() -> Self {
        Judge {
            names: Numbers::new(),
            port_names: Numbers::new(),
            texts: Numbers::new(),
            route_names: Numbers::new(),
            components: Vec::new(),
            owners: Vec::new(),
            ports: Vec::new(),
            routes: Vec::new(),
            lines: Vec::new(),
        }
    }

    fn component(&mut self, name: &'t [u8]) -> u32 {
        let number = self.names.of(name);
        if number as usize == self.components.len() {
            self.components.push(Component {
                has_section: false,
                closed: None,
                has_ended: false,
            });
        }
        number
    }

    fn port(&mut self, component: u32, name: &'t [u8]) -> u32 {
        let number = self.port_names.of((component, name));
        if number as usize == self.ports.len() {
            self.ports.push(Port::default());
            self.owners.push(component);
        }
        number
    }

    fn route(&mut self, sender: u32, port: u32) -> u32 {
        let number = self.route_names.of((sender, port));
        if number as usize == self.routes.len() {
            self.routes.push(Route {
                sender,
                port,
                ..Route::default()
            });
        }
        number
    }

    fn note_message(&mut self, here: u32, fate: Fate, message: Message<'t>, line: u32) -> Act {
        let other = self.component(message.component);
        let (sender, receiver) = if fate == Fate::Sent {
            (here, other)
        } else {
            (other, here)
        };
        let port = self.port(receiver, message.port);
        let route = self.route(sender, port);
        let parcel = Parcel {
            number: message.number,
            text: self.texts.of(message.text),
        };
        let Route { sent, came, .. } = &mut self.routes[route as usize];
        let act = match fate {
            Fate::Sent => {
                sent.push((line, parcel));
                return Act::Sent;
            }
            Fate::Came => {
                came.push((line, parcel));
                Act::Came(route, came.len() as u32 - 1)
            }
            Fate::Left => Act::Left,
            Fate::Took | Fate::Found | Fate::Dropped => Act::Looked,
        };
        let port = &mut self.ports[port as usize];
        if port.place.is_none() {
            port.pass(fate, (route, parcel), line);
        }
        act
    }

    /// Notes a line in the section of a component.
    fn note(&mut self, here: u32, line: Line<'t>, number: u32) {
        let act = match line {
            Line::Message(fate, message) => self.note_message(here, fate, message, number),
            Line::Operation(operation, name) => {
                let port = self.port(here, name);
                let port = &mut self.ports[port as usize];
                if port.place.is_none() {
                    port.operate(operation);
                }
                Act::Looked
            }
            Line::Else => Act::Looked,
            Line::Component(_) | Line::End | Line::Note | Line::Result => Act::Other,
        };
        let component = &mut self.components[here as usize];
        if !component.has_ended && (act == Act::Left || matches!(line, Line::End)) {
            component.closed = Some(number);
            component.has_ended = act != Act::Left;
        }
        self.lines.push(Some(Noted {
            component: here,
            act,
        }));
    }

    fn is_joined(&self, route: &Route) -> bool {
        let owner = self.owners[route.port as usize];
        [route.sender, owner]
            .iter()
            .all(|&it| self.components[it as usize].has_section)
    }

    /// All places, in their order.
    fn places(&self) -> Vec<Place> {
        let mut places: Vec<Place> = Vec::new();
        for (port, &owner) in self.ports.iter().zip(&self.owners) {
            let closed = self.components[owner as usize].closed;
            let missing = closed.filter(|_| port.left < port.queue.len());
            let missing = missing.map(|line| Place {
                line,
                rule: Rule::Left,
            });
            places.extend(port.place.or(missing));
        }
        let undelivered = self.joined().filter_map(Route::place).collect::<Vec<_>>();
        if undelivered.is_empty() {
            let circle = on_a_circle(self.lines.len(), || self.happens_before());
            places.extend(circle.map(|line| Place {
                line: line + 1,
                rule: Rule::Circle,
            }));
        }
        places.extend(undelivered);
        places.sort_unstable();
        places
    }

    /// The routes whose ends both have a section.
    fn joined(&self) -> impl Iterator<Item = &Route> {
        self.routes.iter().filter(|route| self.is_joined(route))
    }

    /// Which line comes before which, where the routes are lawful: the lines of a section in their
    /// order, and a sending before its arrival.
    fn happens_before(&self) -> impl Iterator<Item = (u32, u32)> + '_ {
        let sections = self.lines.windows(2).zip(0..).filter_map(|(pair, place)| {
            let is_one = pair[0]?.component == pair[1]?.component;
            is_one.then_some((place, place + 1))
        });
        let messages = self
            .joined()
            .flat_map(|route| route.sent.iter().zip(&route.came));
        sections.chain(messages.map(|(sent, came)| (sent.0 - 1, came.0 - 1)))
    }

    /// Of each line `came` of a lawful trace, by the place of the message on its route, the line of
    /// its sending, counted from 0; none where the sender has no section.
    fn sending(&self, route: u32, place: u32) -> Option<u32> {
        let route = &self.routes[route as usize];
        self.is_joined(route)
            .then(|| route.sent[place as usize].0 - 1)
    }

    fn answer(&self) -> Answer {
        let places = self.places();
        if !places.is_empty() {
            return Answer::Unlawful(places);
        }
        Answer::Lawful(delayed(&self.lines, |route, place| {
            self.sending(route, place)
        }))
    }
}

enum Answer {
    /// And the first line on a circle of what one run asks for, counted from 0.
    Lawful(Option<u32>),
    Unlawful(Vec<Place>),
}

impl Display for Answer {
    fn fmt(&self, out: &mut fmt::Formatter<'_>) -> fmt::Result {
        match self {
            Answer::Lawful(None) => writeln!(out, "lawful\none run"),
            Answer::Lawful(Some(line)) => writeln!(out, "lawful\ndelayed line {}", line + 1),
            Answer::Unlawful(places) => places.iter().try_for_each(|place| {
                writeln!(out, "unlawful {:?} line {}", place.rule, place.line)
            }),
        }
    }
}

/// Judges a text; the first line of another form where it is no trace.
fn judge(text: &[u8]) -> Result<Answer, u32> {
    let mut judge = Judge::new();
    let mut here = None;
    for (line, number) in read(text).zip(1..) {
        match (line.ok_or(number)?, here) {
            (Line::Component(name), _) => {
                let component = judge.component(name);
                if std::mem::replace(&mut judge.components[component as usize].has_section, true) {
                    return Err(number);
                }
                here = Some(component);
                judge.lines.push(None);
            }
            (Line::Result, _) => judge.lines.push(None),
            (line, Some(here)) => judge.note(here, line, number),
            (_, None) => return Err(number),
        }
    }
    Ok(judge.answer())
}

fn main() -> ExitCode {
    let file = env::args_os().nth(1).unwrap_or_default();
    let mut out = BufWriter::new(io::stdout().lock());
    let (status, said) = match fs::read(file) {
        Err(_) => (2, writeln!(out, "refused 2 Read")),
        Ok(text) if text.len() > LIMIT => (2, writeln!(out, "refused 15 Limit line 0")),
        Ok(text) => match judge(&text) {
            Err(line) => (2, writeln!(out, "refused 1 BadLine line {line}")),
            Ok(answer @ Answer::Lawful(_)) => (0, write!(out, "{answer}")),
            Ok(answer) => (2, write!(out, "{answer}")),
        },
    };
    match said.and_then(|()| out.flush()) {
        Ok(()) => ExitCode::from(status),
        Err(_) => ExitCode::from(3),
    }
}
