//! Whether lines can be put in order, and the first of them that lies on a circle.

use crate::{Act, Noted};

const NONE: u32 = u32::MAX;

/// What comes behind each line, one list after another.
struct Behind {
    starts: Vec<u32>,
    lines: Vec<u32>,
}

impl Behind {
    /// The pairs are gone through twice: once to count them.
    fn new<I: Iterator<Item = (u32, u32)>>(count: usize, pairs: impl Fn() -> I) -> Self {
        let mut starts = vec![0; count + 1];
        for (before, _) in pairs() {
            starts[before as usize] += 1;
        }
        let mut sum = 0;
        for start in &mut starts {
            sum += *start;
            *start = sum;
        }
        let mut lines = vec![0; sum as usize];
        for (before, after) in pairs() {
            let start = &mut starts[before as usize];
            *start -= 1;
            lines[*start as usize] = after;
        }
        Behind { starts, lines }
    }

    fn of(&self, line: u32) -> &[u32] {
        let line = line as usize;
        &self.lines[self.starts[line] as usize..self.starts[line + 1] as usize]
    }

    fn count(&self) -> u32 {
        self.starts.len() as u32 - 1
    }

    /// Of each line how many lines wait before it, once all that can be put in order are.
    fn waits(&self) -> Vec<u32> {
        let mut waits = vec![0; self.count() as usize];
        for &after in &self.lines {
            waits[after as usize] += 1;
        }
        let mut free: Vec<u32> = (0..self.count())
            .filter(|&it| waits[it as usize] == 0)
            .collect();
        while let Some(line) = free.pop() {
            for &after in self.of(line) {
                waits[after as usize] -= 1;
                if waits[after as usize] == 0 {
                    free.push(after);
                }
            }
        }
        waits
    }

    /// The first line that lies on a circle.
    fn first_on_a_circle(&self, waits: &[u32]) -> Option<u32> {
        let mut groups = Groups::new(self);
        for root in (0..self.count()).filter(|&it| waits[it as usize] > 0) {
            groups.visit(root);
        }
        groups.first
    }
}

/// The groups of lines that lie on circles together, the strongly connected components: Tarjan's
/// algorithm, with a stack of its own.
struct Groups<'b> {
    behind: &'b Behind,
    indices: Vec<u32>,
    lows: Vec<u32>,
    stack: Vec<u32>,
    is_stacked: Vec<bool>,
    next: u32,
    /// The first line of any circle.
    first: Option<u32>,
}

impl<'b> Groups<'b> {
    fn new(behind: &'b Behind) -> Self {
        let count = behind.count() as usize;
        Groups {
            behind,
            indices: vec![NONE; count],
            lows: vec![NONE; count],
            stack: Vec::new(),
            is_stacked: vec![false; count],
            next: 0,
            first: None,
        }
    }

    /// All lines that follow from this one.
    fn visit(&mut self, root: u32) {
        let mut calls = self.begin(root).into_iter().collect::<Vec<_>>();
        while let Some((line, done)) = calls.last_mut() {
            let line = *line;
            if let Some(&after) = self.behind.of(line).get(*done) {
                *done += 1;
                calls.extend(self.begin(after));
                if self.is_stacked[after as usize] {
                    self.lower(line, self.indices[after as usize]);
                }
                continue;
            }
            calls.pop();
            if let Some(&(caller, _)) = calls.last() {
                self.lower(caller, self.lows[line as usize]);
            }
            if self.lows[line as usize] == self.indices[line as usize] {
                self.end_group(line);
            }
        }
    }

    /// The line with none of those behind it visited, unless it was come to before.
    fn begin(&mut self, line: u32) -> Option<(u32, usize)> {
        let at = line as usize;
        if self.indices[at] != NONE {
            return None;
        }
        self.indices[at] = self.next;
        self.lows[at] = self.next;
        self.next += 1;
        self.stack.push(line);
        self.is_stacked[at] = true;
        Some((line, 0))
    }

    fn lower(&mut self, line: u32, low: u32) {
        let own = &mut self.lows[line as usize];
        *own = (*own).min(low);
    }

    /// Takes off the stack the group that begins with this line.
    fn end_group(&mut self, line: u32) {
        let begin = self.stack.iter().rposition(|&it| it == line).unwrap_or(0);
        let group = self.stack.split_off(begin);
        for &it in &group {
            self.is_stacked[it as usize] = false;
        }
        if group.len() > 1 || self.behind.of(line).contains(&line) {
            self.first = self.first.into_iter().chain(group).min();
        }
    }
}

/// The first of so many lines that lies on a circle of these pairs.
pub fn on_a_circle<I: Iterator<Item = (u32, u32)>>(
    count: usize,
    pairs: impl Fn() -> I,
) -> Option<u32> {
    let behind = Behind::new(count, pairs);
    let waits = behind.waits();
    if waits.iter().all(|&it| it == 0) {
        return None;
    }
    behind.first_on_a_circle(&waits)
}

/// The first line of a lawful trace on a circle of what one run asks for.
pub fn delayed(lines: &[Option<Noted>], sending: impl Fn(u32, u32) -> Option<u32>) -> Option<u32> {
    on_a_circle(lines.len(), || demands(lines, &sending))
}

/// What is known of the section that is gone through.
#[derive(Clone, Copy)]
struct Latest {
    component: u32,
    /// Its last line that stands in the order, and the last that looked.
    own: u32,
    look: u32,
    /// The sending of what came last, and the same where no line stands behind it yet.
    sending: u32,
    unseen: u32,
}

/// Which line has to come before which, two pairs at most of each line.
fn demands<'l>(
    lines: &'l [Option<Noted>],
    sending: &'l impl Fn(u32, u32) -> Option<u32>,
) -> impl Iterator<Item = (u32, u32)> + 'l {
    let nothing = Latest {
        component: NONE,
        own: NONE,
        look: NONE,
        sending: NONE,
        unseen: NONE,
    };
    let mut latest = nothing;
    let noted = lines
        .iter()
        .zip(0..)
        .filter_map(|(line, place)| line.map(|line| (line, place)));
    let pairs = noted.flat_map(move |(line, place)| {
        if line.component != latest.component {
            latest = Latest {
                component: line.component,
                ..nothing
            };
        }
        let before = latest;
        match line.act {
            Act::Left => return [(NONE, NONE); 2],
            Act::Came(route, number) => {
                let Some(sent) = sending(route, number) else {
                    return [(NONE, NONE); 2];
                };
                latest.sending = sent;
                latest.unseen = sent;
                return [(before.look, sent), (before.sending, sent)];
            }
            Act::Looked => latest.look = place,
            Act::Sent | Act::Other => {}
        }
        latest.own = place;
        latest.unseen = NONE;
        [(before.own, place), (before.unseen, place)]
    });
    pairs.filter(|&(before, _)| before != NONE)
}
