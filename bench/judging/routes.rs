//! A route: what was sent on it, and what came.

use crate::{Parcel, Place, Rule};

/// A sender and a port: the lines of what was sent on it, and of what came.
#[derive(Default)]
pub struct Route {
    pub sender: u32,
    pub port: u32,
    pub sent: Vec<(u32, Parcel)>,
    pub came: Vec<(u32, Parcel)>,
}

impl Route {
    /// The place that is told of it; none where it is lawful.
    pub fn place(&self) -> Option<Place> {
        let misnumbered = self
            .sent
            .iter()
            .zip(0..)
            .find(|((_, parcel), next)| parcel.number != *next);
        if let Some((&(line, _), _)) = misnumbered {
            return Some(Place {
                line,
                rule: Rule::Numbering,
            });
        }
        let parcel =
            |lines: &[(u32, Parcel)], place: usize| lines.get(place).map(|(_, parcel)| *parcel);
        let mut places = 0..self.sent.len().max(self.came.len());
        let place = places.find(|&it| parcel(&self.sent, it) != parcel(&self.came, it))?;
        let (line, rule) = self.wrong_at(place);
        Some(Place { line, rule })
    }

    /// What is wrong at the first place at which what came isn't what was sent there.
    fn wrong_at(&self, place: usize) -> (u32, Rule) {
        let Some(&(line, came)) = self.came.get(place) else {
            return (self.sent[place].0, Rule::Lost);
        };
        match self.sent.get(came.number as usize) {
            None => return (line, Rule::Invented),
            Some(_) if came.number < place as u64 => return (line, Rule::Doubled),
            Some((_, sent)) if *sent != came => return (line, Rule::Changed),
            Some(_) => {}
        }
        let (line, sent) = self.sent[place];
        match self.came[place..]
            .iter()
            .find(|(_, came)| came.number == sent.number)
        {
            None => (line, Rule::Lost),
            Some(&(line, came)) if came != sent => (line, Rule::Changed),
            Some(&(line, _)) => (line, Rule::Reordered),
        }
    }
}
