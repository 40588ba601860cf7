//! The machine: registers, what a TLB may remember, and the operations with their checks.
use crate::permission::{Decision, Place};
use crate::walk::{entry_of, fault, number, walk, word, Entry, Fault};
use std::collections::{BTreeMap, BTreeSet};

#[derive(Clone, Copy, PartialEq, Eq, PartialOrd, Ord, Debug)]
pub enum Kind {
    Read,
    Write,
    Root,
    Asid,
    Mode,
    All,
    Addr,
    Ctx,
    AddrCtx,
    Fetch,
    Domain,
}

/// The operations in the order of the rules, with their names and how many fields each uses.
pub const KINDS: [(Kind, &str, usize); 11] = [
    (Kind::Read, "read", 2),
    (Kind::Write, "write", 3),
    (Kind::Root, "root", 1),
    (Kind::Asid, "asid", 1),
    (Kind::Mode, "mode", 1),
    (Kind::All, "all", 0),
    (Kind::Addr, "addr", 1),
    (Kind::Ctx, "ctx", 1),
    (Kind::AddrCtx, "addrctx", 2),
    (Kind::Fetch, "fetch", 1),
    (Kind::Domain, "domain", 1),
];

#[derive(Clone, Copy, PartialEq, Eq, Debug)]
pub struct Operation {
    pub kind: Kind,
    pub a: u32,
    pub b: u32,
    pub c: u32,
}

impl Operation {
    pub fn is_access(&self) -> bool {
        matches!(self.kind, Kind::Read | Kind::Write | Kind::Fetch)
    }

    /// How many bytes an access asks for: a fetch for four, whatever its b.
    pub fn size(&self) -> u32 {
        if self.kind == Kind::Fetch {
            4
        } else {
            self.b
        }
    }

    /// Whether the size is one that an access may have.
    fn is_sized(&self) -> bool {
        matches!(self.size(), 1 | 2 | 4)
    }

    pub fn is_aligned(&self) -> bool {
        self.is_sized() && self.a.is_multiple_of(self.size())
    }
}

#[derive(Clone, Copy, PartialEq, Eq, Debug, Default)]
pub struct Registers {
    pub root: u32,
    pub context: u32,
    pub mode: u32,
    /// The domain register: a field of two bits for each domain, that of domain 0 lowest.
    pub domains: u32,
}

/// What an accepted start sets the domain register to: 1 in each field.
pub const CLIENTS: u32 = 0x5555_5555;

/// The field of a domain.
pub fn field(domains: u32, domain: u32) -> u32 {
    domains >> (2 * domain) & 3
}

/// The domains whose field is 2, which no domain register may have.
pub fn reserved(domains: u32) -> Vec<u32> {
    (0..16).filter(|d| field(domains, *d) == 2).collect()
}

impl Registers {
    /// Those that an accepted start returns.
    pub fn started(root: u32) -> Registers {
        Registers {
            root,
            context: 0,
            mode: 0,
            domains: CLIENTS,
        }
    }

    /// Whether each is one that the rules know, with this many contexts.
    pub fn in_range(&self, contexts: u32) -> bool {
        let domains = reserved(self.domains).is_empty();
        self.root.is_multiple_of(0x80) && self.context < contexts && self.mode < 2 && domains
    }
}

#[derive(Clone, Copy, PartialEq, Eq, PartialOrd, Ord, Debug)]
pub enum Answer {
    Ok(u32),
    Fault(Fault),
    Refused(u32),
}

/// What stands for the outcome of an operation that translates nothing.
pub const NOT_TRANSLATED: Result<Entry, Fault> = Err(0);

/// What an operation that is carried out does to memory and registers, given how its page is
/// translated, which only an access looks at.
pub fn effect(
    memory: &mut [u8],
    registers: &mut Registers,
    operation: &Operation,
    outcome: Result<Entry, Fault>,
) -> Answer {
    match operation.kind {
        Kind::Root => registers.root = operation.a,
        Kind::Asid => registers.context = operation.a,
        Kind::Mode => registers.mode = operation.a,
        Kind::Domain => registers.domains = operation.a,
        Kind::Read | Kind::Write | Kind::Fetch => {
            return match access(memory, registers, operation, outcome) {
                Ok(value) => Answer::Ok(value),
                Err(fault) => Answer::Fault(fault),
            }
        }
        Kind::All | Kind::Addr | Kind::Ctx | Kind::AddrCtx => (),
    }
    Answer::Ok(0)
}

/// The fault of an access through an entry that is not allowed, by what maps its page.
fn grant(entry: Entry, registers: &Registers, kind: Kind) -> Result<(), Fault> {
    let place = Place {
        ap: entry.ap,
        mode: registers.mode,
        kind,
        field: field(registers.domains, entry.domain),
        xn: entry.xn,
    };
    let told = |section, page| Err(if entry.section { section } else { page });
    match place.decision() {
        Decision::Allowed => Ok(()),
        Decision::PermissionFault => told(fault::PERMISSION_SECTION, fault::PERMISSION_PAGE),
        Decision::DomainFault => told(fault::DOMAIN_SECTION, fault::DOMAIN_PAGE),
    }
}

fn access(
    memory: &mut [u8],
    registers: &Registers,
    operation: &Operation,
    outcome: Result<Entry, Fault>,
) -> Result<u32, Fault> {
    if !operation.is_aligned() {
        return Err(fault::ALIGNMENT);
    }
    let entry = outcome?;
    grant(entry, registers, operation.kind)?;
    let at = u64::from(entry.frame) << 12 | u64::from(operation.a & 0xFFF);
    let size = operation.size() as usize;
    let value = number(memory, at, size).ok_or(fault::ACCESS_OUTSIDE)?;
    if operation.kind != Kind::Write {
        return Ok(value);
    }
    let at = at as usize;
    memory[at..at + size].copy_from_slice(&operation.c.to_le_bytes()[..size]);
    Ok(0)
}

/// Whom an entry serves: the context that it was noted or loaded in, or all of them.
#[derive(Clone, Copy, PartialEq, Eq, PartialOrd, Ord, Debug)]
pub enum Scope {
    Context(u32),
    Global,
}

impl Scope {
    /// That of an entry which is noted or loaded in a context.
    pub fn of(entry: Entry, context: u32) -> Scope {
        if entry.global {
            Scope::Global
        } else {
            Scope::Context(context)
        }
    }

    pub fn serves(self, context: u32) -> bool {
        self == Scope::Global || self == Scope::Context(context)
    }
}

/// Whether a flush names what is remembered in a scope for a page.
pub fn flushes(operation: &Operation, scope: Scope, page: u32) -> bool {
    let same_page = operation.a >> 12 == page;
    match operation.kind {
        Kind::All => true,
        Kind::Addr => same_page,
        Kind::Ctx => scope == Scope::Context(operation.a),
        Kind::AddrCtx => same_page && scope.serves(operation.b),
        _ => false,
    }
}

/// What a TLB may remember for one page, in one context or for all of them.
#[derive(Clone, PartialEq, Eq, Debug)]
pub enum Remembered {
    These(BTreeSet<Entry>),
    /// A track word that tells of no set: two entries or more, which ones is not known.
    Several(u32),
}

/// The checker: memory, registers, and the sets that are not empty.
#[derive(Clone, Debug)]
pub struct Machine {
    pub memory: Vec<u8>,
    pub registers: Registers,
    words: usize,
    sets: BTreeMap<(Scope, u32), Remembered>,
}

/// The rows of a track with this many words: one for each context, then the global one.
fn rows(words: usize) -> impl Iterator<Item = Scope> {
    let whole = words / 1024;
    let row = move |i| {
        if i + 1 == whole {
            Scope::Global
        } else {
            Scope::Context(i as u32)
        }
    };
    // What is left of a length that does not fit is a row like others.
    (0..words.div_ceil(1024)).map(row)
}

impl Machine {
    /// A machine on lent memory, track and registers, whatever they are.
    pub fn lent(memory: &[u8], track: &[u32], registers: Registers) -> Machine {
        let mut sets = BTreeMap::new();
        for (scope, row) in rows(track.len()).zip(track.chunks(1024)) {
            let suits = |entry: &Entry| entry.global == (scope == Scope::Global);
            for (page, &found) in (0..).zip(row).filter(|(_, found)| **found != 0) {
                let remembered = match entry_of(found).filter(suits) {
                    Some(entry) => Remembered::These(BTreeSet::from([entry])),
                    None => Remembered::Several(found),
                };
                sets.insert((scope, page), remembered);
            }
        }
        Machine {
            memory: memory.to_vec(),
            registers,
            words: track.len(),
            sets,
        }
    }

    /// The track as words.
    pub fn track(&self) -> Vec<u32> {
        let mut words = vec![0; self.words];
        for (scope, row) in rows(self.words).zip(words.chunks_mut(1024)) {
            for (&(_, page), remembered) in self.sets.range((scope, 0)..=(scope, 1023)) {
                row[page as usize] = match remembered {
                    Remembered::Several(found) => *found,
                    Remembered::These(set) if set.len() == 1 => set.first().map_or(0, |e| word(*e)),
                    Remembered::These(set) if set.is_empty() => 0,
                    Remembered::These(_) => 1,
                };
            }
        }
        words
    }

    /// How many contexts there are, by the length of the track: its rows but the global one.
    fn contexts(&self) -> u32 {
        (self.words / 1024).saturating_sub(1) as u32
    }

    fn lengths_fit(&self) -> bool {
        let memory = self.memory.len();
        let whole = memory.is_multiple_of(4096) && self.words.is_multiple_of(1024);
        whole && (4096..=16_777_216).contains(&memory) && (1..=256).contains(&self.contexts())
    }

    /// A start: the answer, and the machine afterwards.
    pub fn start(memory: &[u8], track: &[u32], root: u32) -> (Answer, Machine) {
        let mut machine = Machine::lent(memory, track, Registers::default());
        if !machine.lengths_fit() {
            return (Answer::Refused(13), machine);
        }
        if !root.is_multiple_of(0x80) {
            return (Answer::Refused(10), machine);
        }
        machine.registers = Registers::started(root);
        machine.sets.clear();
        machine.note();
        (Answer::Ok(0), machine)
    }

    pub fn outcome(&self, address: u32) -> Result<Entry, Fault> {
        walk(&self.memory, self.registers.root, address)
    }

    fn note(&mut self) {
        for page in 0..1024 {
            if let Ok(entry) = self.outcome(page << 12) {
                let remembered = self
                    .sets
                    .entry((Scope::of(entry, self.registers.context), page))
                    .or_insert_with(|| Remembered::These(BTreeSet::new()));
                if let Remembered::These(set) = remembered {
                    set.insert(entry);
                }
            }
        }
    }

    /// Whether the set of a page in one scope holds an entry other than the present outcome.
    fn is_stale_in(&self, scope: Scope, address: u32) -> bool {
        let present = self.outcome(address).ok();
        match self.sets.get(&(scope, address >> 12)) {
            None => false,
            Some(Remembered::Several(_)) => true,
            Some(Remembered::These(set)) => set.iter().any(|e| Some(*e) != present),
        }
    }

    /// The scopes whose sets make a page stale: the current context's, the global one, or both.
    pub fn stale_in(&self, address: u32) -> Vec<Scope> {
        [Scope::Context(self.registers.context), Scope::Global]
            .into_iter()
            .filter(|scope| self.is_stale_in(*scope, address))
            .collect()
    }

    pub fn is_stale(&self, address: u32) -> bool {
        !self.stale_in(address).is_empty()
    }

    /// The numbers whose conditions hold before an access is looked at, in the order of the rules.
    pub fn conditions(&self, operation: &Operation) -> Vec<u32> {
        let Operation { kind, a, b, c } = *operation;
        let contexts = self.contexts();
        let r = &self.registers;
        let access = operation.is_access();
        let flush_address = matches!(kind, Kind::Addr | Kind::AddrCtx);
        let context = match kind {
            Kind::Asid | Kind::Ctx => Some(a),
            Kind::AddrCtx => Some(b),
            _ => None,
        };
        let large = matches!(b, 1 | 2) && u64::from(c) >= 1 << (8 * b);
        [
            (13, !self.lengths_fit()),
            (14, !r.in_range(contexts)),
            (7, access && !operation.is_sized()),
            (8, (access || flush_address) && a >= 0x40_0000),
            (9, kind == Kind::Write && large),
            (10, kind == Kind::Root && !a.is_multiple_of(0x80)),
            (11, context.is_some_and(|n| n >= contexts)),
            (12, kind == Kind::Mode && a > 1),
            (17, kind == Kind::Domain && !reserved(a).is_empty()),
            (15, r.mode == 1 && !access && kind != Kind::Mode),
            (20, kind == Kind::Root && r.context != 0),
        ]
        .into_iter()
        .filter_map(|(number, holds)| holds.then_some(number))
        .collect()
    }

    pub fn step(&mut self, operation: &Operation) -> Answer {
        if let Some(number) = self.conditions(operation).first() {
            return Answer::Refused(*number);
        }
        if operation.is_access() && operation.is_aligned() && self.is_stale(operation.a) {
            return Answer::Refused(16);
        }
        let outcome = if operation.is_access() {
            self.outcome(operation.a)
        } else {
            NOT_TRANSLATED
        };
        let answer = effect(&mut self.memory, &mut self.registers, operation, outcome);
        self.sets
            .retain(|&(scope, page), _| !flushes(operation, scope, page));
        self.note();
        answer
    }
}
