//! The lines of a trace.

use std::str;

#[derive(Clone, Copy, PartialEq, Eq)]
pub enum Fate {
    Sent,
    Came,
    Took,
    Found,
    Dropped,
    Left,
}

#[derive(Clone, Copy)]
pub enum Operation {
    Cleared,
    Started,
    Stopped,
    Halted,
}

/// A message: the component at its other end, the receiver's port, its number on its route.
#[derive(Clone, Copy)]
pub struct Message<'t> {
    pub component: &'t [u8],
    pub port: &'t [u8],
    pub number: u64,
    pub text: &'t [u8],
}

#[derive(Clone, Copy)]
pub enum Line<'t> {
    Component(&'t [u8]),
    Message(Fate, Message<'t>),
    Operation(Operation, &'t [u8]),
    Else,
    End,
    /// `set`, `failed` and `verdict`.
    Note,
    Result,
}

/// The lines of a text, none in place of one that can't stand where it does.
pub fn read(text: &[u8]) -> impl Iterator<Item = Option<Line<'_>>> {
    let mut is_left = false;
    let mut has_result = false;
    let text = text
        .strip_suffix(b"\n")
        .or((!text.is_empty()).then_some(text));
    let lines = text
        .into_iter()
        .flat_map(|text| text.split(|&byte| byte == b'\n'));
    lines.map(move |line| {
        let line = trace_line(line)?;
        let may_stand = match line {
            Line::Component(_) | Line::Result | Line::Message(Fate::Left, _) => true,
            _ => !is_left,
        };
        if has_result || !may_stand {
            return None;
        }
        is_left = matches!(line, Line::Message(Fate::Left, _));
        has_result = matches!(line, Line::Result);
        Some(line)
    })
}

/// The first word, and what stands behind the space, where one does.
fn cut(text: &[u8], separator: u8) -> (&[u8], Option<&[u8]>) {
    match text.iter().position(|&byte| byte == separator) {
        Some(place) => (&text[..place], Some(&text[place + 1..])),
        None => (text, None),
    }
}

fn trace_line(line: &[u8]) -> Option<Line<'_>> {
    let (word, rest) = cut(line, b' ');
    let Some(rest) = rest else {
        return (word == b"else").then_some(Line::Else);
    };
    let line = match word {
        b"component" => Line::Component(name(rest)?),
        b"sent" => Line::Message(Fate::Sent, sent(rest)?),
        b"came" => Line::Message(Fate::Came, passed(rest)?),
        b"took" => Line::Message(Fate::Took, passed(rest)?),
        b"found" => Line::Message(Fate::Found, passed(rest)?),
        b"dropped" => Line::Message(Fate::Dropped, passed(rest)?),
        b"left" => Line::Message(Fate::Left, passed(rest)?),
        b"cleared" => Line::Operation(Operation::Cleared, port(rest)?),
        b"started" => Line::Operation(Operation::Started, port(rest)?),
        b"stopped" => Line::Operation(Operation::Stopped, port(rest)?),
        b"halted" => Line::Operation(Operation::Halted, port(rest)?),
        b"set" | b"verdict" => verdict(rest).map(|()| Line::Note)?,
        b"result" => verdict(rest).map(|()| Line::Result)?,
        b"failed" => number(rest).map(|_| Line::Note)?,
        b"end" if !rest.is_empty() => Line::End,
        _ => return None,
    };
    Some(line)
}

fn name(word: &[u8]) -> Option<&[u8]> {
    (!word.is_empty() && word.iter().all(u8::is_ascii_graphic)).then_some(word)
}

fn port(word: &[u8]) -> Option<&[u8]> {
    name(word).filter(|word| !word.contains(&b'.'))
}

fn verdict(word: &[u8]) -> Option<()> {
    matches!(word, b"none" | b"pass" | b"inconc" | b"fail" | b"error").then_some(())
}

fn number(word: &[u8]) -> Option<u64> {
    let is_plain =
        word.iter().all(u8::is_ascii_digit) && (word[..] == *b"0" || word.first() != Some(&b'0'));
    let number: i64 = is_plain.then(|| str::from_utf8(word).ok()?.parse().ok())??;
    Some(number as u64)
}

fn sent(rest: &[u8]) -> Option<Message<'_>> {
    let (to, rest) = cut(rest, b' ');
    let dot = to.iter().rposition(|&byte| byte == b'.')?;
    numbered(name(&to[..dot])?, port(&to[dot + 1..])?, rest?)
}

fn passed(rest: &[u8]) -> Option<Message<'_>> {
    let (at, rest) = cut(rest, b' ');
    let (sender, rest) = cut(rest?, b' ');
    numbered(name(sender)?, port(at)?, rest?)
}

fn numbered<'t>(component: &'t [u8], port: &'t [u8], rest: &'t [u8]) -> Option<Message<'t>> {
    let (word, text) = cut(rest, b' ');
    let number = number(word)?;
    let text = text.filter(|text| !text.is_empty())?;
    Some(Message {
        component,
        port,
        number,
        text,
    })
}
