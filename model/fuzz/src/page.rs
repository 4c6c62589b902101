//! Pages to call with: true ones, old ones, and ones with a wrong entry.

use outline_model::page::Tables;
use outline_model::rng::Rng;
use outline_model::{Log, NO_PARENT, SLOTS};

/// Entries of an order.
const ORDER: usize = SLOTS - 1;

/// The content of the three tables.
#[derive(Clone, PartialEq, Eq, Debug)]
pub struct Page {
    pub order: Vec<u16>,
    pub parents: Vec<u16>,
    pub outcomes: Vec<u8>,
}

impl Page {
    /// All zeros, which is no log's.
    pub fn zeros() -> Page {
        Page {
            order: vec![0; ORDER],
            parents: vec![0; SLOTS],
            outcomes: vec![0; SLOTS],
        }
    }

    /// The page of the log in a buffer, if it is sound.
    pub fn fresh(buffer: &[u8]) -> Option<Page> {
        let tables = Tables::of(&Log::open(buffer)?);
        Some(Page {
            order: tables.order,
            parents: tables.parents,
            outcomes: tables.outcomes,
        })
    }

    /// How many ops it has in its order.
    pub fn held(&self) -> usize {
        self.order.iter().take_while(|&&slot| slot != 0).count()
    }

    /// With one wrong entry: the first, the last or any of those that count, or
    /// around the end of the order.
    pub fn stained(mut self, rng: &mut Rng) -> Page {
        let held = self.held();
        let place = |rng: &mut Rng, length: usize| {
            let around = (held + rng.below(3)).saturating_sub(1).min(length - 1);
            let any = rng.below(length);
            rng.pick(&[0, length - 1, length / 2, around, any])
        };
        match rng.below(3) {
            0 => {
                let at = place(rng, self.order.len());
                let other = rng.below(SLOTS) as u16;
                self.order[at] = unlike(self.order[at], rng.pick(&[0, 1, 65_535, other]));
            }
            1 => {
                let at = place(rng, self.parents.len());
                self.parents[at] = unlike(self.parents[at], rng.pick(&[0, 257, NO_PARENT]));
            }
            _ => {
                let at = place(rng, self.outcomes.len());
                let any = rng.byte();
                self.outcomes[at] ^= any.max(1);
            }
        }
        self
    }

    /// With other entries in one table, such as those of another page.
    pub fn mixed(mut self, rng: &mut Rng, other: Page) -> Page {
        match rng.below(3) {
            0 => self.order = other.order,
            1 => self.parents = other.parents,
            _ => self.outcomes = other.outcomes,
        }
        self
    }

    /// Any entries.
    pub fn noise(rng: &mut Rng) -> Page {
        let mut word = || u16::from_be_bytes([rng.byte(), rng.byte()]);
        Page {
            order: (0..ORDER).map(|_| word()).collect(),
            parents: (0..SLOTS).map(|_| word()).collect(),
            outcomes: (0..SLOTS).map(|_| rng.byte()).collect(),
        }
    }

    /// Just as long as a page is.
    pub fn whole(mut self) -> Page {
        self.order.resize(ORDER, 0);
        self.parents.resize(SLOTS, 0);
        self.outcomes.resize(SLOTS, 0);
        self
    }

    /// One table shorter, by one entry or more.
    pub fn short(mut self, rng: &mut Rng) -> Page {
        let mut less = |length: usize| match rng.below(3) {
            0 => rng.below(length),
            1 => 0,
            _ => length - 1,
        };
        let (order, table) = (less(ORDER), less(SLOTS));
        match rng.below(3) {
            0 => self.order.truncate(order),
            1 => self.parents.truncate(table),
            _ => self.outcomes.truncate(table),
        }
        self
    }

    /// With entries behind it, some of which could be taken for its own.
    pub fn long(mut self, rng: &mut Rng) -> Page {
        for _ in 0..rng.below(5) {
            self.order.push(rng.pick(&[0, 1, 2040, 65_535]));
        }
        for _ in 0..rng.below(5) {
            self.parents.push(rng.pick(&[0, 257, NO_PARENT]));
        }
        for _ in 0..rng.below(5) {
            self.outcomes.push(rng.byte() % 4);
        }
        self
    }
}

/// The entry, or where it is the same, the one after it.
fn unlike(entry: u16, other: u16) -> u16 {
    if entry == other {
        entry.wrapping_add(1)
    } else {
        other
    }
}
