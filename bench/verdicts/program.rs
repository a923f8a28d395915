//! What the components of a work carry out, read from lines that `works.py` writes.
//!
//!     wanted 0 1 1                 a row: for each message, by its number, whether it is wanted
//!     component mtc 5 0 2          its name, its first instruction, how many variables and ports it has
//!     end                          instruction 0 of the component; the next line is instruction 1
//!     setverdict pass 0            the last number is the instruction behind this one
//!     control 1 halt 0             an operation on port 1
//!     control all stop 0           on each port
//!     send 0 2 3 1.0               at port 0, message 2, then instruction 3; to port 0 of component 1
//!     send 0 v0 3                  what variable 0 holds; nowhere
//!     send 0 2 3 v1 1.0 2.0        to the component that variable 1 holds, at one of these ports
//!     alt -                        without `[else]`, or with its instruction; its alternatives follow
//!     receive 0 1 - - v0 4         or trigger, check: port 0, row 1, `from` nobody, no variable for the
//!                                  message, variable 0 for the sender, then instruction 4

use std::str::FromStr;

#[derive(Clone, Copy, PartialEq, Eq, PartialOrd, Ord)]
pub enum Verdict {
    None,
    Pass,
    Inconc,
    Fail,
    Error,
}

/// The words for the verdicts, in their order.
pub const VERDICTS: [(Verdict, &str); 5] = [
    (Verdict::None, "none"),
    (Verdict::Pass, "pass"),
    (Verdict::Inconc, "inconc"),
    (Verdict::Fail, "fail"),
    (Verdict::Error, "error"),
];

#[derive(Clone, Copy, PartialEq, Eq)]
pub enum Operation {
    Start,
    Stop,
    Halt,
    Clear,
}

#[derive(Clone, Copy, PartialEq, Eq)]
pub enum Kind {
    Receive,
    Trigger,
    Check,
}

/// A port of a component.
#[derive(Clone, Copy, PartialEq, Eq)]
pub struct Target {
    pub component: usize,
    pub port: usize,
}

pub enum Sent {
    Message(u32),
    Variable(usize),
}

pub enum Destination {
    Port(Target),
    Nowhere,
    /// To the component that the variable holds, at one of these ports.
    Variable(usize, Vec<Target>),
}

pub struct Sending {
    pub port: usize,
    pub message: Sent,
    pub to: Destination,
    pub next: u32,
}

pub struct Alternative {
    pub port: usize,
    pub kind: Kind,
    pub wanted: usize,
    pub from: Option<u32>,
    pub value_to: Option<usize>,
    pub sender_to: Option<usize>,
    pub next: u32,
}

pub enum Instruction {
    End,
    SetVerdict(Verdict, u32),
    Control(usize, Operation, u32),
    AllPorts(Operation, u32),
    Send(Sending),
    Alt(Vec<Alternative>, Option<u32>),
}

pub struct Body {
    pub name: String,
    pub instructions: Vec<Instruction>,
    pub start: u32,
    pub variables: usize,
    pub ports: usize,
}

#[derive(Default)]
pub struct Program {
    pub bodies: Vec<Body>,
    pub rows: Vec<Vec<bool>>,
}

/// A number, if there is one; that of a variable has a `v` before it.
fn optional<T: FromStr>(word: &str) -> Option<T> {
    word.trim_start_matches('v').parse().ok()
}

fn target(word: &str) -> Option<Target> {
    let (component, port) = word.split_once('.')?;
    Some(Target {
        component: component.parse().ok()?,
        port: port.parse().ok()?,
    })
}

fn verdict(word: &str) -> Option<Verdict> {
    let (verdict, _) = VERDICTS.iter().find(|(_, name)| *name == word)?;
    Some(*verdict)
}

fn operation(word: &str) -> Option<Operation> {
    match word {
        "start" => Some(Operation::Start),
        "stop" => Some(Operation::Stop),
        "halt" => Some(Operation::Halt),
        "clear" => Some(Operation::Clear),
        _ => None,
    }
}

fn kind(word: &str) -> Option<Kind> {
    match word {
        "receive" => Some(Kind::Receive),
        "trigger" => Some(Kind::Trigger),
        "check" => Some(Kind::Check),
        _ => None,
    }
}

fn destination(words: &[&str]) -> Option<Destination> {
    match words {
        [] => Some(Destination::Nowhere),
        [variable, ports @ ..] if variable.starts_with('v') => {
            let ports: Option<Vec<Target>> = ports.iter().map(|word| target(word)).collect();
            Some(Destination::Variable(optional(variable)?, ports?))
        }
        [one] => Some(Destination::Port(target(one)?)),
        _ => None,
    }
}

fn sending(words: &[&str]) -> Option<Sending> {
    let [port, message, next, to @ ..] = words else {
        return None;
    };
    let message = match message.strip_prefix('v') {
        Some(variable) => Sent::Variable(variable.parse().ok()?),
        None => Sent::Message(message.parse().ok()?),
    };
    Some(Sending {
        port: port.parse().ok()?,
        message,
        to: destination(to)?,
        next: next.parse().ok()?,
    })
}

fn alternative(words: &[&str]) -> Option<Alternative> {
    let [word, port, wanted, from, value_to, sender_to, next] = words else {
        return None;
    };
    Some(Alternative {
        port: port.parse().ok()?,
        kind: kind(word)?,
        wanted: wanted.parse().ok()?,
        from: optional(from),
        value_to: optional(value_to),
        sender_to: optional(sender_to),
        next: next.parse().ok()?,
    })
}

fn body(words: &[&str]) -> Option<Body> {
    let [name, start, variables, ports] = words else {
        return None;
    };
    Some(Body {
        name: name.to_string(),
        instructions: Vec::new(),
        start: start.parse().ok()?,
        variables: variables.parse().ok()?,
        ports: ports.parse().ok()?,
    })
}

fn instruction(words: &[&str]) -> Option<Instruction> {
    Some(match words {
        ["end"] => Instruction::End,
        ["setverdict", word, next] => Instruction::SetVerdict(verdict(word)?, next.parse().ok()?),
        ["control", "all", word, next] => {
            Instruction::AllPorts(operation(word)?, next.parse().ok()?)
        }
        ["control", port, word, next] => {
            Instruction::Control(port.parse().ok()?, operation(word)?, next.parse().ok()?)
        }
        ["send", rest @ ..] => Instruction::Send(sending(rest)?),
        ["alt", otherwise] => Instruction::Alt(Vec::new(), optional(otherwise)),
        _ => return None,
    })
}

impl Destination {
    /// Whether a message may go to this port.
    pub fn may_be(&self, target: Target) -> bool {
        match self {
            Destination::Port(port) => *port == target,
            Destination::Nowhere => false,
            Destination::Variable(_, ports) => ports.contains(&target),
        }
    }
}

impl Program {
    fn read_line(&mut self, words: &[&str]) -> Option<()> {
        match words {
            ["wanted", row @ ..] => self
                .rows
                .push(row.iter().map(|word| *word == "1").collect()),
            ["component", rest @ ..] => self.bodies.push(body(rest)?),
            ["receive" | "trigger" | "check", ..] => {
                match self.bodies.last_mut()?.instructions.last_mut()? {
                    Instruction::Alt(alternatives, _) => alternatives.push(alternative(words)?),
                    _ => return None,
                }
            }
            _ => self
                .bodies
                .last_mut()?
                .instructions
                .push(instruction(words)?),
        }
        Some(())
    }

    /// The program that the text is of, or the first line that none has.
    pub fn read(text: &str) -> Result<Program, &str> {
        let mut program = Program::default();
        for line in text.lines() {
            let words: Vec<&str> = line.split(' ').collect();
            program.read_line(&words).ok_or(line)?;
        }
        Ok(program)
    }
}
