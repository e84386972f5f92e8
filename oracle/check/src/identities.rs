//! The identities of a pack as Rust texts, each with the place it was read from.
use pack::corpus::Case;
use pack::row::Row;
use std::collections::HashMap;

/// Text bit, start, length.
pub type Place = [u64; 3];

/// Each place has its own stretch of one text, followed by a blank, so that a lent part
/// tells its place by its address even where it is empty.
pub struct Identities {
    text: String,
    starts: HashMap<Place, usize>,
    places: HashMap<usize, Place>,
}

impl Identities {
    /// Packing has passed, so that each identity is a Rust text.
    pub fn of(case: &Case, rows: &[Row]) -> Self {
        let mut all = Identities { text: String::new(), starts: HashMap::new(), places: HashMap::new() };
        for row in rows {
            for (at, house) in row.identities() {
                let place = [house.into(), row.numbers[at], row.numbers[at + 1]];
                let part = case.part(house, place[1], place[2]).expect("packing passed");
                all.add(place, std::str::from_utf8(part).expect("packing passed"));
            }
        }
        all
    }

    fn add(&mut self, place: Place, text: &str) {
        if !self.starts.contains_key(&place) {
            self.starts.insert(place, self.text.len());
            self.places.insert(self.text.len(), place);
            self.text.push_str(text);
            self.text.push(' ');
        }
    }

    /// The identity whose start is the row's number at this place.
    pub fn text(&self, row: &Row, at: usize) -> &str {
        let (_, house) = row.identities().find(|(place, _)| *place == at).expect("an identity");
        let place = [house.into(), row.numbers[at], row.numbers[at + 1]];
        let start = self.starts[&place];
        &self.text[start..start + place[2] as usize]
    }

    /// Where a text that `text` gave stands.
    pub fn place(&self, id: &str) -> Place {
        self.places[&(id.as_ptr() as usize - self.text.as_ptr() as usize)]
    }
}
