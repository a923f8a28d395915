//! A port, replayed.

use crate::reading::{Fate, Operation};
use crate::{Parcel, Place, Rule};
use std::collections::VecDeque;

#[derive(Default)]
enum Status {
    #[default]
    Started,
    /// The mark stands behind this many messages.
    Halted(usize),
    Stopped,
}

#[derive(Default)]
pub struct Port {
    status: Status,
    /// The route that each message came on, and the message.
    pub queue: VecDeque<(u32, Parcel)>,
    /// How many lines `left` there were.
    pub left: usize,
    pub place: Option<Place>,
}

impl Port {
    pub fn operate(&mut self, operation: Operation) {
        match operation {
            Operation::Cleared => self.clear(),
            Operation::Started => {
                self.queue.clear();
                self.status = Status::Started;
            }
            Operation::Stopped => self.status = Status::Stopped,
            Operation::Halted => {
                if let Status::Started = self.status {
                    self.status = Status::Halted(self.queue.len());
                }
            }
        }
    }

    fn clear(&mut self) {
        self.queue.clear();
        if let Status::Halted(ahead) = &mut self.status {
            *ahead = 0;
        }
    }

    /// The rule that is broken where this is taken, found or dropped.
    fn broken_by(&self, message: &(u32, Parcel)) -> Option<Rule> {
        let ahead = match self.status {
            Status::Stopped => return Some(Rule::Stopped),
            Status::Halted(ahead) => ahead,
            Status::Started => self.queue.len(),
        };
        if ahead > 0 && self.queue.front() == Some(message) {
            return None;
        }
        let is_behind = self.queue.iter().skip(ahead).any(|it| it == message);
        Some(if is_behind {
            Rule::Behind
        } else {
            Rule::NotTop
        })
    }

    fn take_out(&mut self) {
        self.queue.pop_front();
        if let Status::Halted(ahead) = &mut self.status {
            *ahead -= 1;
        }
    }

    /// What became of a message at this port, told in this line.
    pub fn pass(&mut self, fate: Fate, message: (u32, Parcel), line: u32) {
        let rule = match fate {
            Fate::Came => {
                self.queue.push_back(message);
                None
            }
            Fate::Left => {
                self.left += 1;
                let is_so = self.queue.get(self.left - 1) == Some(&message);
                (!is_so).then_some(Rule::Left)
            }
            _ => self.broken_by(&message),
        };
        if let Some(rule) = rule {
            self.place = Some(Place { line, rule });
        } else if matches!(fate, Fate::Took | Fate::Dropped) {
            self.take_out();
        }
    }
}
