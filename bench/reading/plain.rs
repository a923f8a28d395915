//! The tokens of a script in plain Rust, `std` alone, as `main.rattle` needs them for its tree. The file
//! is the second word. Printed is how many definitions the tokens begin, or the fault.

use std::fmt;
use std::process::ExitCode;

/// The reserved words.
#[derive(Clone, Copy, PartialEq)]
enum Word {
    Module,
    Type,
    Record,
    Of,
    Port,
    Message,
    Component,
    In,
    Out,
    Inout,
    Function,
    Testcase,
    Runs,
    On,
    System,
    Var,
    Create,
    Connect,
    Map,
    Mtc,
    SelfWord,
    Start,
    Stop,
    Halt,
    Clear,
    Send,
    Receive,
    Trigger,
    Check,
    To,
    From,
    Alt,
    Else,
    For,
    Setverdict,
    NoneWord,
    Pass,
    Inconc,
    Fail,
    Error,
    All,
    Done,
    True,
    False,
    Integer,
    Boolean,
    Charstring,
    Complement,
    Pattern,
    Infinity,
    Value,
    Sender,
}

/// The symbols.
#[derive(Clone, Copy)]
enum Symbol {
    LeftBrace,
    RightBrace,
    LeftParen,
    RightParen,
    LeftBracket,
    RightBracket,
    Comma,
    Semicolon,
    Colon,
    Dot,
    Question,
    Star,
    Minus,
    Less,
    Plus,
    DotDot,
    Assign,
    Arrow,
}

/// A token. Names, and texts with their quotes, are borrowed.
#[allow(dead_code)]
enum Token<'t> {
    Name(&'t str),
    Word(Word),
    Number(u64),
    Text(&'t [u8]),
    Symbol(Symbol),
}

/// A token and its line.
#[allow(dead_code)]
struct Placed<'t> {
    token: Token<'t>,
    line: u32,
}

/// Why a text has no tokens.
enum Fault {
    Syntax(u32),
    Limit(u32),
}

impl fmt::Display for Fault {
    fn fmt(&self, f: &mut fmt::Formatter) -> fmt::Result {
        match self {
            Fault::Syntax(line) => write!(f, "refused 10 Syntax line {line}"),
            Fault::Limit(line) => write!(f, "refused 15 Limit line {line}"),
        }
    }
}

const LONGEST_TEXT: usize = 1_048_576;
const LONGEST_NAME: usize = 64;
const GREATEST_NUMBER: u64 = 9_223_372_036_854_775_808;

fn word_of(spelling: &str) -> Option<Word> {
    Some(match spelling {
        "module" => Word::Module,
        "type" => Word::Type,
        "record" => Word::Record,
        "of" => Word::Of,
        "port" => Word::Port,
        "message" => Word::Message,
        "component" => Word::Component,
        "in" => Word::In,
        "out" => Word::Out,
        "inout" => Word::Inout,
        "function" => Word::Function,
        "testcase" => Word::Testcase,
        "runs" => Word::Runs,
        "on" => Word::On,
        "system" => Word::System,
        "var" => Word::Var,
        "create" => Word::Create,
        "connect" => Word::Connect,
        "map" => Word::Map,
        "mtc" => Word::Mtc,
        "self" => Word::SelfWord,
        "start" => Word::Start,
        "stop" => Word::Stop,
        "halt" => Word::Halt,
        "clear" => Word::Clear,
        "send" => Word::Send,
        "receive" => Word::Receive,
        "trigger" => Word::Trigger,
        "check" => Word::Check,
        "to" => Word::To,
        "from" => Word::From,
        "alt" => Word::Alt,
        "else" => Word::Else,
        "for" => Word::For,
        "setverdict" => Word::Setverdict,
        "none" => Word::NoneWord,
        "pass" => Word::Pass,
        "inconc" => Word::Inconc,
        "fail" => Word::Fail,
        "error" => Word::Error,
        "all" => Word::All,
        "done" => Word::Done,
        "true" => Word::True,
        "false" => Word::False,
        "integer" => Word::Integer,
        "boolean" => Word::Boolean,
        "charstring" => Word::Charstring,
        "complement" => Word::Complement,
        "pattern" => Word::Pattern,
        "infinity" => Word::Infinity,
        "value" => Word::Value,
        "sender" => Word::Sender,
        _ => return None,
    })
}

fn is_word_byte(byte: u8) -> bool {
    byte.is_ascii_alphanumeric() || byte == b'_'
}

/// The token of a name or a reserved word at the front, and its length.
fn word(rest: &[u8], line: u32) -> Result<(Token<'_>, usize), Fault> {
    let size = rest.iter().position(|byte| !is_word_byte(*byte)).unwrap_or(rest.len());
    let spelling = std::str::from_utf8(&rest[..size]).expect("ASCII");
    if let Some(word) = word_of(spelling) {
        return Ok((Token::Word(word), size));
    }
    if size > LONGEST_NAME {
        return Err(Fault::Limit(line));
    }
    Ok((Token::Name(spelling), size))
}

/// The token of a number at the front, and its length.
fn number(rest: &[u8], line: u32) -> Result<(Token<'_>, usize), Fault> {
    if rest[0] == b'0' {
        return Ok((Token::Number(0), 1));
    }
    let size = rest.iter().position(|byte| !byte.is_ascii_digit()).unwrap_or(rest.len());
    let mut value: u64 = 0;
    for digit in &rest[..size] {
        value = value
            .checked_mul(10)
            .and_then(|value| value.checked_add(u64::from(digit - b'0')))
            .filter(|value| *value <= GREATEST_NUMBER)
            .ok_or(Fault::Limit(line))?;
    }
    Ok((Token::Number(value), size))
}

/// The token of a text at the front, and its length.
fn text(rest: &[u8], line: u32) -> Result<(Token<'_>, usize), Fault> {
    let mut at = 1;
    loop {
        match rest.get(at) {
            Some(b'"') if rest.get(at + 1) == Some(&b'"') => at += 2,
            Some(b'"') => return Ok((Token::Text(&rest[..=at]), at + 1)),
            Some(32..=126) => at += 1,
            _ => return Err(Fault::Syntax(line)),
        }
    }
}

/// The length of a comment at the front.
fn comment(rest: &[u8], line: u32) -> Result<usize, Fault> {
    match rest.get(1) {
        Some(b'/') => Ok(rest.iter().position(|byte| *byte == b'\n').unwrap_or(rest.len())),
        Some(b'*') => match rest[2..].windows(2).position(|pair| pair == b"*/") {
            Some(size) => Ok(size + 4),
            None => Err(Fault::Syntax(line)),
        },
        _ => Err(Fault::Syntax(line)),
    }
}

/// The token of a symbol at the front, and its length.
fn symbol(rest: &[u8], line: u32) -> Result<(Token<'_>, usize), Fault> {
    let (symbol, size) = match (rest[0], rest.get(1)) {
        (b'.', Some(b'.')) => (Symbol::DotDot, 2),
        (b':', Some(b'=')) => (Symbol::Assign, 2),
        (b'-', Some(b'>')) => (Symbol::Arrow, 2),
        (b'{', _) => (Symbol::LeftBrace, 1),
        (b'}', _) => (Symbol::RightBrace, 1),
        (b'(', _) => (Symbol::LeftParen, 1),
        (b')', _) => (Symbol::RightParen, 1),
        (b'[', _) => (Symbol::LeftBracket, 1),
        (b']', _) => (Symbol::RightBracket, 1),
        (b',', _) => (Symbol::Comma, 1),
        (b';', _) => (Symbol::Semicolon, 1),
        (b':', _) => (Symbol::Colon, 1),
        (b'.', _) => (Symbol::Dot, 1),
        (b'?', _) => (Symbol::Question, 1),
        (b'*', _) => (Symbol::Star, 1),
        (b'-', _) => (Symbol::Minus, 1),
        (b'<', _) => (Symbol::Less, 1),
        (b'+', _) => (Symbol::Plus, 1),
        _ => return Err(Fault::Syntax(line)),
    };
    Ok((Token::Symbol(symbol), size))
}

/// The tokens of a text, with their lines.
fn tokens(all: &[u8]) -> Result<Vec<Placed<'_>>, Fault> {
    if all.len() > LONGEST_TEXT {
        return Err(Fault::Limit(0));
    }
    let mut tokens = Vec::new();
    let (mut at, mut line) = (0, 1);
    while at < all.len() {
        let rest = &all[at..];
        let (token, size) = match rest[0] {
            b'\n' => {
                line += 1;
                at += 1;
                continue;
            }
            9..=13 | 32 => {
                at += 1;
                continue;
            }
            b'/' => {
                let size = comment(rest, line)?;
                line += rest[..size].iter().filter(|byte| **byte == b'\n').count() as u32;
                at += size;
                continue;
            }
            b'a'..=b'z' | b'A'..=b'Z' => word(rest, line)?,
            b'0'..=b'9' => number(rest, line)?,
            b'"' => text(rest, line)?,
            _ => symbol(rest, line)?,
        };
        tokens.push(Placed { token, line });
        at += size;
    }
    Ok(tokens)
}

/// Whether a definition begins with the token.
fn begins_a_definition(token: &Token) -> bool {
    matches!(token, Token::Word(Word::Type | Word::Function | Word::Testcase))
}

fn main() -> ExitCode {
    for file in std::env::args().skip(2) {
        let all = match std::fs::read(&file) {
            Ok(all) => all,
            Err(error) => {
                eprintln!("{file}: {error}");
                return ExitCode::FAILURE;
            }
        };
        match tokens(&all) {
            Ok(tokens) => {
                let count = tokens.iter().filter(|placed| begins_a_definition(&placed.token)).count();
                println!("{count} definitions");
            }
            Err(fault) => println!("{fault}"),
        }
    }
    ExitCode::SUCCESS
}
