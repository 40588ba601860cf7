//! The plain machine, which has no TLB, and a chip with a TLB of n places.
use crate::machine::{effect, flushes, Answer, Operation, Registers, Scope, NOT_TRANSLATED};
use crate::random::Random;
use crate::walk::{walk, Entry, Fault};

/// The plain machine: memory, at first the image, and registers.
#[derive(Clone, Debug)]
pub struct Plain {
    pub memory: Vec<u8>,
    pub registers: Registers,
}

impl Plain {
    pub fn new(image: &[u8], root: u32) -> Plain {
        Plain {
            memory: image.to_vec(),
            registers: Registers::started(root),
        }
    }

    pub fn outcome(&self, address: u32) -> Result<Entry, Fault> {
        walk(&self.memory, self.registers.root, address)
    }

    /// An operation that was not refused.
    pub fn step(&mut self, operation: &Operation) -> Answer {
        let outcome = if operation.is_access() {
            self.outcome(operation.a)
        } else {
            NOT_TRANSLATED
        };
        effect(&mut self.memory, &mut self.registers, operation, outcome)
    }
}

/// An entry held under the context that it was loaded in, and its page.
#[derive(Clone, Copy, PartialEq, Eq, Debug)]
pub struct Held {
    pub context: u32,
    pub page: u32,
    pub entry: Entry,
}

impl Held {
    pub fn scope(&self) -> Scope {
        Scope::of(self.entry, self.context)
    }

    pub fn matches(&self, context: u32, page: u32) -> bool {
        self.page == page && self.scope().serves(context)
    }

    /// Whether there is a context in which both match a page.
    fn clashes(&self, other: &Held) -> bool {
        self.matches(other.context, other.page) || other.matches(self.context, self.page)
    }
}

/// The chip: a plain machine with places for entries.
#[derive(Clone, Debug)]
pub struct Chip {
    pub plain: Plain,
    pub places: Vec<Option<Held>>,
}

impl Chip {
    pub fn new(image: &[u8], root: u32, places: usize) -> Chip {
        Chip {
            plain: Plain::new(image, root),
            places: vec![None; places],
        }
    }

    /// What is held for a page in the current context.
    pub fn held(&self, page: u32) -> Option<Held> {
        let context = self.plain.registers.context;
        let mut held = self.places.iter().flatten();
        held.find(|held| held.matches(context, page)).copied()
    }

    /// Drops what a place holds.
    pub fn drop_place(&mut self, place: usize) {
        self.places[place] = None;
    }

    /// Loads the entry of a page that the tables map, if a place is free and in no context an entry
    /// held would match the page beside it.
    pub fn load(&mut self, page: u32) {
        let Ok(entry) = self.plain.outcome(page << 12) else {
            return;
        };
        let context = self.plain.registers.context;
        let loaded = Held {
            context,
            page,
            entry,
        };
        let mut held = self.places.iter().flatten();
        if held.any(|other| other.clashes(&loaded)) {
            return;
        }
        if let Some(place) = self.places.iter_mut().find(|place| place.is_none()) {
            *place = Some(loaded);
        }
    }

    /// Any moves that a chip may make between operations.
    pub fn moves(&mut self, random: &mut Random, pages: &[u32]) {
        for _ in 0..random.below(4) {
            let place = random.below(self.places.len() as u64) as usize;
            if random.one_in(3) {
                self.drop_place(place);
            } else {
                self.load(*random.pick(pages));
            }
        }
    }

    /// What an aligned access goes by: a held entry comes before the tables.
    pub fn outcome(&self, address: u32) -> Result<Entry, Fault> {
        let held = self.held(address >> 12);
        held.map_or_else(|| self.plain.outcome(address), |held| Ok(held.entry))
    }

    /// An operation that was not refused.
    pub fn step(&mut self, operation: &Operation) -> Answer {
        let outcome = if operation.is_access() {
            self.outcome(operation.a)
        } else {
            NOT_TRANSLATED
        };
        let Plain { memory, registers } = &mut self.plain;
        let answer = effect(memory, registers, operation, outcome);
        for place in &mut self.places {
            if place.is_some_and(|held| flushes(operation, held.scope(), held.page)) {
                *place = None;
            }
        }
        answer
    }
}
