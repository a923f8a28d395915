//! Writes a trace of a shape, in whole lines, of so many bytes at most and nearly as many.
//!
//!     traces SHAPE BYTES
//!
//! bench/README.md says what the shapes are.

use std::env;
use std::io::{self, BufWriter, Write};
use std::process::ExitCode;

/// Two sections, one after the other in the text, which are made side by side.
struct Pair {
    first: String,
    second: String,
    limit: usize,
}

impl Pair {
    /// Adds text to both, or says that there is no room.
    fn add(&mut self, first: &str, second: &str) -> bool {
        let size = self.first.len() + self.second.len() + first.len() + second.len();
        if size > self.limit {
            return false;
        }
        self.first.push_str(first);
        self.second.push_str(second);
        true
    }
}

/// Adds the texts of 0, 1, 2 and so on, until there is no room.
fn fill(mut pair: Pair, texts: impl Fn(u64) -> (String, String)) -> String {
    for number in 0.. {
        let (first, second) = texts(number);
        if !pair.add(&first, &second) {
            break;
        }
    }
    pair.first + &pair.second
}

fn pair(first: &str, second: &str, limit: usize) -> Pair {
    Pair {
        first: first.to_string(),
        second: second.to_string(),
        limit,
    }
}

/// The same of one section, or of many.
fn fill_one(begin: &str, limit: usize, text: impl Fn(u64) -> String) -> String {
    fill(pair(begin, "", limit), |number| {
        (text(number), String::new())
    })
}

/// Two components ask and answer each other.
fn rounds(limit: usize) -> String {
    fill(
        pair("component mtc\n", "component server\n", limit),
        |number| {
            let question =
                format!("{number} Question:{{id := {number}, text := \"how many are left?\"}}\n");
            let answer = format!(
                "{number} Answer:{{id := {number}, left := {}}}\n",
                number % 1000
            );
            (
            format!("sent server.ask {question}came reply server {answer}took reply server {answer}"),
            format!("came ask mtc {question}took ask mtc {question}sent mtc.reply {answer}"),
        )
        },
    )
}

/// Components of one line each.
fn sections(limit: usize) -> String {
    fill_one("", limit, |number| {
        format!("component c{number}\nend done\n")
    })
}

/// Components each of which sends a message to the next and takes one.
fn ring(limit: usize) -> String {
    let last = fill_one("", limit - 64, |number| link(number, number + 1));
    let count = last.matches("component").count() as u64;
    let closing = format!(
        "component c{count}\ncame p c{} 0 m\ntook p c{} 0 m\nend done\n",
        count - 1,
        count - 1
    );
    last + &closing
}

fn link(number: u64, next: u64) -> String {
    let came = match number.checked_sub(1) {
        Some(before) => format!("came p c{before} 0 m\ntook p c{before} 0 m\n"),
        None => String::new(),
    };
    format!("component c{number}\nsent c{next}.p 0 m\n{came}end done\n")
}

/// One component that looks at nothing but its port's status: 10 bytes a line.
fn operations(limit: usize) -> String {
    fill_one("component a\n", limit, |number| {
        if number % 2 == 0 {
            "stopped p\n"
        } else {
            "started p\n"
        }
        .to_string()
    })
}

/// One component, to which small messages come from one that has no section.
fn small(limit: usize) -> String {
    fill_one("component a\n", limit, |number| {
        format!("came p b {number} m\ntook p b {number} m\n")
    })
}

/// Messages of 10,000 bytes, no two alike.
fn long(limit: usize) -> String {
    let filling = "x".repeat(10_000);
    fill(pair("component a\n", "component b\n", limit), |number| {
        let message = format!("{number} {number}{filling}\n");
        (
            format!("sent b.p {message}"),
            format!("came p a {message}took p a {message}"),
        )
    })
}

/// Messages that are all queued before the first is taken.
fn queued(limit: usize) -> String {
    fill(pair("component a\n", "", limit), |number| {
        (
            format!("came p b {number} message\n"),
            format!("took p b {number} message\n"),
        )
    })
}

/// One component that sends a message to each of many.
fn routes(limit: usize) -> String {
    fill(pair("component a\n", "", limit), |number| {
        (
            format!("sent c{number}.p 0 m\n"),
            format!("component c{number}\ncame p a 0 m\ntook p a 0 m\n"),
        )
    })
}

/// The shortest lines that there are.
fn shortest(limit: usize) -> String {
    fill_one("component a\n", limit, |_| "else\n".to_string())
}

/// A fault in every second line.
fn unlawful(limit: usize) -> String {
    fill_one("", limit, |number| {
        format!("component c{number}\ntook p b 0 m\n")
    })
}

fn trace(shape: &str, limit: usize) -> Option<String> {
    let text = match shape {
        "rounds" => rounds(limit),
        "small" => small(limit),
        "queued" => queued(limit),
        "long" => long(limit),
        "routes" => routes(limit),
        "ring" => ring(limit),
        "sections" => sections(limit),
        "unlawful" => unlawful(limit),
        "operations" => operations(limit),
        "else" => shortest(limit),
        _ => return None,
    };
    Some(text)
}

fn main() -> ExitCode {
    let words: Vec<String> = env::args().skip(1).collect();
    let wanted = match words.as_slice() {
        [shape, bytes] => bytes.parse().ok().and_then(|bytes| trace(shape, bytes)),
        _ => None,
    };
    let Some(text) = wanted else {
        eprintln!("usage: traces SHAPE BYTES");
        return ExitCode::from(4);
    };
    let mut out = BufWriter::new(io::stdout().lock());
    match out.write_all(text.as_bytes()).and_then(|()| out.flush()) {
        Ok(()) => ExitCode::SUCCESS,
        Err(_) => ExitCode::from(3),
    }
}
