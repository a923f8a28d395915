//! The job of `main.rattle` in plain Rust, with the usual matcher that goes back to the last `*`.

#[derive(Clone, Copy, PartialEq)]
enum Part {
    Literal(u8),
    #[allow(dead_code)]
    One,
    Many,
}

const ROUNDS: u32 = 100;
const CHARACTERS: usize = 20_000;

fn pattern() -> Vec<Part> {
    let mut parts = Vec::new();
    for _ in 0..19 {
        parts.extend([Part::Many, Part::Literal(b'a')]);
    }
    parts.push(Part::Many);
    parts.extend([Part::Literal(b'a'); 160]);
    parts.push(Part::Literal(b'b'));
    parts
}

fn text(round: u32) -> Vec<u8> {
    let mut characters = vec![b'a'; CHARACTERS];
    characters[0] = b'a' + (round % 25) as u8;
    characters
}

fn matches(parts: &[Part], text: &[u8]) -> bool {
    let (mut part, mut at, mut back) = (0, 0, None);
    while at < text.len() {
        match parts.get(part) {
            Some(Part::Many) => {
                part += 1;
                back = Some((part, at));
                continue;
            }
            Some(Part::One) => {
                part += 1;
                at += 1;
                continue;
            }
            Some(Part::Literal(wanted)) if *wanted == text[at] => {
                part += 1;
                at += 1;
                continue;
            }
            _ => {}
        }
        let Some((after, from)) = back else {
            return false;
        };
        part = after;
        at = from + 1;
        back = Some((after, from + 1));
    }
    parts[part..].iter().all(|part| *part == Part::Many)
}

fn main() {
    let pattern = pattern();
    let matched = (0..ROUNDS).filter(|round| matches(&pattern, &text(*round))).count();
    println!("{matched}");
}
