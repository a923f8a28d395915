//! The queue mode of `tpr` as plain Rust, without proofs and without a history.
//!
//! It has two uses. `bench/run` compares its speed and memory with those of `tpr`, and
//! `bench/write_cuts` has it answer the texts under `tests/` that are cut short. It was written from
//! the rules of the queue file alone, so that it can also witness against `tpr`.

use std::collections::{HashMap, VecDeque};
use std::fs::File;
use std::io::{self, Read, Write};
use std::process::ExitCode;

/// The longest text that is read, in bytes.
const LIMIT: usize = 1_048_576;
const LONGEST_NAME: usize = 20;

/// What one line asks for.
enum Command<'t> {
    Arrive(&'t [u8], i64),
    Receive(Wanted<'t>),
    Check(Wanted<'t>),
    Trigger(Wanted<'t>),
    Clear,
    Start,
    Stop,
    Halt,
}

/// The criteria of a receiving operation: `None` stands for any value, and for any sender.
struct Wanted<'t> {
    value: Option<i64>,
    sender: Option<&'t [u8]>,
}

fn command(line: &[u8]) -> Option<Command<'_>> {
    let mut words: [&[u8]; 4] = [b""; 4];
    let mut count = 0;
    for word in line.split(|&byte| byte == b' ') {
        *words.get_mut(count)? = word;
        count += 1;
    }
    match words[..count] {
        [b"arrive", sender, value] => Some(Command::Arrive(name(sender)?, integer(value)?)),
        [b"clear"] => Some(Command::Clear),
        [b"start"] => Some(Command::Start),
        [b"stop"] => Some(Command::Stop),
        [b"halt"] => Some(Command::Halt),
        [operation, pattern] => receiving(operation, pattern, None),
        [operation, pattern, b"from", sender] => receiving(operation, pattern, Some(name(sender)?)),
        _ => None,
    }
}

fn receiving<'t>(
    operation: &[u8],
    pattern: &[u8],
    sender: Option<&'t [u8]>,
) -> Option<Command<'t>> {
    let operation = match operation {
        b"receive" => Command::Receive,
        b"check" => Command::Check,
        b"trigger" => Command::Trigger,
        _ => return None,
    };
    let value = match pattern {
        b"?" => None,
        _ => Some(integer(pattern)?),
    };
    Some(operation(Wanted { value, sender }))
}

/// A letter, then letters and digits, 20 in all at most.
fn name(word: &[u8]) -> Option<&[u8]> {
    let starts_well = word.first()?.is_ascii_alphabetic();
    let is_name =
        starts_well && word.len() <= LONGEST_NAME && word.iter().all(u8::is_ascii_alphanumeric);
    is_name.then_some(word)
}

/// A decimal number of 64 signed bits, without leading zeros, plus sign or minus zero.
fn integer(word: &[u8]) -> Option<i64> {
    let digits = word.strip_prefix(b"-").unwrap_or(word);
    let is_plain = match digits.first()? {
        b'0' => word.len() == 1,
        b'1'..=b'9' => true,
        _ => false,
    };
    if !is_plain {
        return None;
    }
    std::str::from_utf8(word).ok()?.parse().ok()
}

enum Status {
    Started,
    /// The mark stands behind this many entries.
    Halted(usize),
    Stopped,
}

struct Port<'t> {
    numbers: HashMap<&'t [u8], u32>,
    names: Vec<&'t [u8]>,
    queue: VecDeque<(u32, i64)>,
    status: Status,
    out: Vec<u8>,
}

impl<'t> Port<'t> {
    fn new() -> Self {
        Port {
            numbers: HashMap::new(),
            names: Vec::new(),
            queue: VecDeque::new(),
            status: Status::Started,
            out: Vec::new(),
        }
    }

    fn number_of(&mut self, name: &'t [u8]) -> u32 {
        let next = self.names.len() as u32;
        let number = *self.numbers.entry(name).or_insert(next);
        if number == next {
            self.names.push(name);
        }
        number
    }

    /// The top message, and whether it satisfies; nothing where none can be delivered.
    fn top(&mut self, wanted: Wanted<'t>) -> Option<((u32, i64), bool)> {
        let sender = wanted.sender.map(|name| self.number_of(name));
        if let Status::Halted(0) | Status::Stopped = self.status {
            return None;
        }
        let message = *self.queue.front()?;
        let satisfies = wanted.value.is_none_or(|value| value == message.1)
            && sender.is_none_or(|number| number == message.0);
        Some((message, satisfies))
    }

    fn take_out(&mut self) {
        self.queue.pop_front();
        if let Status::Halted(ahead) = &mut self.status {
            *ahead -= 1;
        }
    }

    fn clear(&mut self) {
        let count = self.queue.len();
        self.queue.clear();
        if let Status::Halted(ahead) = &mut self.status {
            *ahead = 0;
        }
        self.say_number(b"cleared ", count as i64);
    }

    fn run(&mut self, command: Command<'t>) {
        match command {
            Command::Arrive(name, value) => {
                let sender = self.number_of(name);
                self.queue.push_back((sender, value));
                self.say(b"queued\n");
            }
            Command::Receive(wanted) => match self.top(wanted) {
                Some((message, true)) => {
                    self.take_out();
                    self.say_message(b"took ", message);
                }
                _ => self.say(b"no\n"),
            },
            Command::Check(wanted) => match self.top(wanted) {
                Some((message, true)) => self.say_message(b"found ", message),
                _ => self.say(b"no\n"),
            },
            Command::Trigger(wanted) => match self.top(wanted) {
                Some((message, satisfies)) => {
                    self.take_out();
                    self.say_message(if satisfies { b"took " } else { b"dropped " }, message);
                }
                None => self.say(b"no\n"),
            },
            Command::Clear => self.clear(),
            Command::Start => {
                self.clear();
                self.status = Status::Started;
            }
            Command::Stop => {
                self.status = Status::Stopped;
                self.say(b"stopped\n");
            }
            Command::Halt => match self.status {
                Status::Started => {
                    let ahead = self.queue.len();
                    self.status = Status::Halted(ahead);
                    self.say_number(b"halted ", ahead as i64);
                }
                Status::Halted(_) | Status::Stopped => self.say(b"unchanged\n"),
            },
        }
    }

    fn say(&mut self, text: &[u8]) {
        self.out.extend_from_slice(text);
    }

    fn say_number(&mut self, text: &[u8], number: i64) {
        self.say(text);
        self.digits(number);
        self.out.push(b'\n');
    }

    fn say_message(&mut self, text: &[u8], (sender, value): (u32, i64)) {
        self.say(text);
        self.say(self.names[sender as usize]);
        self.say_number(b" ", value);
    }

    fn digits(&mut self, number: i64) {
        let mut digits = [0; 20];
        let mut at = digits.len();
        let mut rest = number.unsigned_abs();
        loop {
            at -= 1;
            digits[at] = b'0' + (rest % 10) as u8;
            rest /= 10;
            if rest == 0 {
                break;
            }
        }
        if number < 0 {
            self.out.push(b'-');
        }
        self.say(&digits[at..]);
    }

    fn say_what_is_left(&mut self) {
        self.say_number(b"left ", self.queue.len() as i64);
        for message in std::mem::take(&mut self.queue) {
            self.say_message(b"", message);
        }
    }
}

/// The answers to a whole text, or the number of its first bad line.
fn replay(text: &[u8]) -> Result<Vec<u8>, usize> {
    let mut port = Port::new();
    if !text.is_empty() {
        let lines = text.strip_suffix(b"\n").unwrap_or(text);
        for (at, line) in lines.split(|&byte| byte == b'\n').enumerate() {
            port.run(command(line).ok_or(at + 1)?);
        }
    }
    port.say_what_is_left();
    Ok(port.out)
}

/// Reads one byte past the limit at most.
fn read(file: Option<&str>) -> io::Result<Vec<u8>> {
    let mut text = Vec::with_capacity(LIMIT + 1);
    let most = LIMIT as u64 + 1;
    match file {
        Some(path) => File::open(path)?.take(most).read_to_end(&mut text)?,
        None => io::stdin().lock().take(most).read_to_end(&mut text)?,
    };
    Ok(text)
}

fn answer(file: Option<&str>) -> (Vec<u8>, u8) {
    match read(file) {
        Err(_) => (b"refused 2 Read\n".to_vec(), 2),
        Ok(text) if text.len() > LIMIT => (b"refused 15 Limit line 0\n".to_vec(), 2),
        Ok(text) => match replay(&text) {
            Ok(answers) => (answers, 0),
            Err(line) => (format!("refused 1 BadLine line {line}\n").into_bytes(), 2),
        },
    }
}

fn write(answers: &[u8]) -> io::Result<()> {
    let mut out = io::stdout().lock();
    out.write_all(answers)?;
    out.flush()
}

fn main() -> ExitCode {
    let words: Option<Vec<String>> = std::env::args_os()
        .skip(1)
        .map(|word| word.into_string().ok())
        .collect();
    let words = words.unwrap_or_default();
    let file = match words.iter().map(String::as_str).collect::<Vec<_>>()[..] {
        ["queue"] => None,
        ["queue", file] => Some(file),
        _ => {
            eprintln!("usage: tpr MODE [FILE]");
            return ExitCode::from(4);
        }
    };
    let (answers, status) = answer(file);
    match write(&answers) {
        Ok(()) => ExitCode::from(status),
        Err(_) => ExitCode::from(3),
    }
}
