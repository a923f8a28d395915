//! What stands in the queue of a port for a message that is sent there: of those that the receiving operations there
//! treat alike, the first stands for all; and component 0 for every sender, where none of them looks at senders.

use std::collections::{BTreeSet, HashMap};

use crate::program::{Alternative, Instruction, Program, Sent, Target};
use crate::states::Entry;

/// What is beyond each place.
pub const NEVER: u32 = u32::MAX;

/// The classes of what may come to a port.
pub struct Classes {
    tells_senders: bool,
    /// For each message the one that stands for it.
    alike: Vec<u32>,
}

/// The sends of a component to a port, each by its instruction.
pub struct Sends {
    /// The first, and what stands at the port for what it sends, unless that hangs on a variable.
    first: u32,
    entry: Option<Entry>,
    /// The first for which something else may stand there.
    other: u32,
}

/// The receiving operations at a port.
fn operations(program: &Program, target: Target) -> impl Iterator<Item = &Alternative> {
    let instructions = program.bodies[target.component].instructions.iter();
    let all = instructions.flat_map(|instruction| match instruction {
        Instruction::Alt(alternatives, _) => alternatives.as_slice(),
        _ => &[],
    });
    all.filter(move |alternative| alternative.port == target.port)
}

impl Classes {
    pub fn of(program: &Program, target: Target) -> Classes {
        let all = || operations(program, target);
        let keeps_value = all().any(|one| one.value_to.is_some());
        let rows: BTreeSet<usize> = all().map(|one| one.wanted).collect();
        let mut firsts: HashMap<Vec<bool>, u32> = HashMap::new();
        let first = |message: u32| {
            if keeps_value {
                return message;
            }
            let wanted = rows.iter().map(|row| program.rows[*row][message as usize]);
            *firsts.entry(wanted.collect()).or_insert(message)
        };
        let messages = program.rows.first().map_or(0, Vec::len) as u32;
        Classes {
            tells_senders: all().any(|one| one.from.is_some() || one.sender_to.is_some()),
            alike: (0..messages).map(first).collect(),
        }
    }

    pub fn entry(&self, sent: Entry) -> Entry {
        Entry {
            sender: if self.tells_senders { sent.sender } else { 0 },
            // Without a receiving operation anywhere, no message is told apart.
            message: self
                .alike
                .get(sent.message as usize)
                .map_or(0, |first| *first),
        }
    }
}

impl Sends {
    pub fn of(program: &Program, classes: &Classes, number: usize, target: Target) -> Sends {
        let mut sends = Sends {
            first: NEVER,
            entry: None,
            other: NEVER,
        };
        for (place, instruction) in (0..).zip(&program.bodies[number].instructions) {
            let Instruction::Send(sending) = instruction else {
                continue;
            };
            if sending.to.may_be(target) {
                sends.add(place, sending.message.entry(classes, number));
            }
        }
        sends
    }

    fn add(&mut self, place: u32, entry: Option<Entry>) {
        if self.first == NEVER {
            self.first = place;
            self.entry = entry;
        } else if self.other == NEVER && (entry.is_none() || entry != self.entry) {
            self.other = place;
        }
    }

    /// Whether one is left to a component at this place.
    pub fn are_left(&self, place: u32) -> bool {
        place >= self.first
    }

    /// Whether one is left for which something else may stand at the port.
    pub fn are_left_of_others(&self, place: u32, entry: Entry) -> bool {
        if self.entry == Some(entry) {
            return place >= self.other;
        }
        self.are_left(place)
    }
}

impl Sent {
    /// What stands at the port for it, unless that hangs on a variable.
    fn entry(&self, classes: &Classes, number: usize) -> Option<Entry> {
        match self {
            Sent::Message(message) => Some(classes.entry(Entry {
                sender: number as u32,
                message: *message,
            })),
            Sent::Variable(_) => None,
        }
    }
}
