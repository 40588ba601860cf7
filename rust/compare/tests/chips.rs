//! The model's machine against its own chips and plain machine, and 16 against the entries that a
//! TLB can really reach.
use compare::{cases, keep, Tally};
use model::chip::{Chip, Held, Plain};
use model::generate::{self, damaged, operations, PAGES};
use model::machine::{field, Answer, Kind, Machine, Operation, Scope, CLIENTS, KINDS};
use model::random::Random;
use model::walk::{fault, Entry};
use std::collections::BTreeSet;

const CONTEXTS: u32 = 3;

const ACCESSES: [Kind; 3] = [Kind::Read, Kind::Write, Kind::Fetch];

fn op(kind: Kind, a: u32, b: u32, c: u32) -> Operation {
    Operation { kind, a, b, c }
}

fn list(random: &mut Random, memory: u32) -> Vec<Operation> {
    let length = 10 + random.below(30);
    let list = operations(random, CONTEXTS, memory, length);
    list.into_iter()
        .map(|o| damaged(random, CONTEXTS, o))
        .collect()
}

fn start(image: &[u8], root: u32) -> Machine {
    let track = [0; (CONTEXTS as usize + 1) * 1024];
    let (answer, machine) = Machine::start(image, &track, root);
    assert_eq!(answer, Answer::Ok(0));
    machine
}

fn fail(case: u64, image: &[u8], list: &[Operation], what: &str) -> ! {
    let text = generate::text(list);
    let folder = keep("chip", case, &[("image.bin", image), ("list", &text)]);
    panic!("{what}; image and list are in {}", folder.display());
}

/// What translates an access that is carried out.
#[derive(Clone, Copy, PartialEq, Eq, PartialOrd, Ord, Debug)]
enum By {
    /// The tables, since no held entry matches.
    Tables,
    /// An entry loaded in the current context.
    Own,
    /// An entry loaded in another one.
    Another,
}

const BY: [By; 3] = [By::Tables, By::Own, By::Another];

fn by(chip: &Chip, access: &Operation) -> By {
    match chip.held(access.a >> 12) {
        None => By::Tables,
        Some(held) if held.context == chip.plain.registers.context => By::Own,
        Some(_) => By::Another,
    }
}

/// What translates a fetch that XN stops, though the page may be read.
fn stopped_by_xn(chip: &Chip, fetch: &Operation) -> Option<By> {
    if fetch.kind != Kind::Fetch {
        return None;
    }
    let read = op(Kind::Read, fetch.a, 4, 0);
    let answers = [fetch, &read].map(|o| chip.clone().step(o));
    matches!(answers, [Answer::Fault(_), Answer::Ok(_)]).then(|| by(chip, fetch))
}

/// Whether at most one held entry matches a page in each context.
fn one_matches_at_most(chip: &Chip) -> bool {
    let matching = |context, page| {
        let held = chip.places.iter().flatten();
        held.filter(|held| held.matches(context, page)).count()
    };
    (0..CONTEXTS).all(|context| PAGES.iter().all(|page| matching(context, *page) <= 1))
}

/// What was seen of operations that chips carried out, and of others.
#[derive(Default)]
struct Seen {
    answers: Tally<(Kind, Answer)>,
    /// Aligned accesses, by what translates them.
    used: Tally<(Kind, By)>,
    /// Of these such as are mapped, with the field of the entry's domain.
    fields: Tally<(By, u32)>,
    /// Fetches that XN stops.
    stops: Tally<By>,
    /// Of `root`, with whether it is another root than the one held.
    roots: Tally<(bool, Answer)>,
}

impl Seen {
    /// Adds what the machine answered; the chip stands before the operation.
    fn add(&mut self, chip: &Chip, o: &Operation, answer: Answer) {
        self.answers.add(match answer {
            Answer::Ok(_) => (o.kind, Answer::Ok(0)),
            other => (o.kind, other),
        });
        if o.kind == Kind::Root {
            let another = o.a != chip.plain.registers.root;
            self.roots.add((another, answer));
        }
        if matches!(answer, Answer::Refused(_)) {
            return;
        }
        if o.is_access() && o.is_aligned() {
            self.used.add((o.kind, by(chip, o)));
            if let Ok(entry) = chip.outcome(o.a) {
                let field = field(chip.plain.registers.domains, entry.domain);
                self.fields.add((by(chip, o), field));
            }
        }
        if let Some(stopped) = stopped_by_xn(chip, o) {
            self.stops.add(stopped);
        }
    }

    fn must_have(&self) {
        let by_each = |kind| BY.map(|by| (kind, by));
        self.used
            .must_have("accesses, by", ACCESSES.map(by_each).concat());
        let fields = BY.map(|by| [0, 1, 3].map(|field| (by, field)));
        self.fields
            .must_have("fields of domains, by", fields.concat());
        self.stops.must_have("fetches stopped by XN, by", BY);
        let ended = [Answer::Ok(0), Answer::Refused(15), Answer::Refused(20)];
        let roots = [false, true].map(|another| ended.map(|answer| (another, answer)));
        let no_root = [(true, Answer::Refused(10))];
        self.roots.must_have(
            "root, of another",
            roots.concat().into_iter().chain(no_root),
        );
        let carried = KINDS.map(|(kind, _, _)| (kind, Answer::Ok(0)));
        let stale = ACCESSES.map(|kind| (kind, Answer::Refused(16)));
        let permission = [fault::PERMISSION_SECTION, fault::PERMISSION_PAGE];
        let stopped = permission.map(|n| (Kind::Fetch, Answer::Fault(n)));
        let domain = [fault::DOMAIN_SECTION, fault::DOMAIN_PAGE];
        let closed = ACCESSES.map(|kind| domain.map(|n| (kind, Answer::Fault(n))));
        let refused = [15, 17].map(|n| (Kind::Domain, Answer::Refused(n)));
        let all = carried.into_iter().chain(stale).chain(stopped);
        self.answers
            .must_have("chips", all.chain(closed.concat()).chain(refused));
    }
}

#[test]
fn chips_agree_with_the_machine() {
    let mut seen = Seen::default();
    for (case, mut random) in cases(1_200) {
        let image = generate::image(&mut random);
        let operations = list(&mut random, image.len() as u32);
        let root = *random.pick(&generate::ROOTS);
        let mut machine = start(&image, root);
        let mut plain = Plain::new(&image, root);
        let mut chip = Chip::new(&image, root, 1 + random.below(6) as usize);
        chip.moves(&mut random, &PAGES);
        for o in &operations {
            let answer = machine.step(o);
            seen.add(&chip, o, answer);
            if !matches!(answer, Answer::Refused(_)) {
                let (by_plain, by_chip) = (plain.step(o), chip.step(o));
                if answer != by_plain || answer != by_chip {
                    let what = format!("{o:x?}: {answer:x?}, {by_plain:x?}, {by_chip:x?}");
                    fail(case, &image, &operations, &what);
                }
            }
            let state = (machine.registers, &machine.memory);
            let plain_state = (plain.registers, &plain.memory);
            let chip_state = (chip.plain.registers, &chip.plain.memory);
            if state != plain_state || state != chip_state {
                fail(case, &image, &operations, "memory or registers differ");
            }
            chip.moves(&mut random, &PAGES);
            if !one_matches_at_most(&chip) {
                fail(case, &image, &operations, "two held entries match a page");
            }
        }
    }
    seen.must_have();
}

/// What a TLB of one place can hold for a page at the end, of what matches it in the context that is
/// then current: an entry that it loads at some time and then keeps. The operations come with whether
/// they were refused.
fn reachable(image: &[u8], root: u32, told: &[(Operation, bool)], page: u32) -> Vec<Held> {
    let mut held = Vec::new();
    for load_at in 0..=told.len() {
        let mut chip = Chip::new(image, root, 1);
        for (i, (o, refused)) in told.iter().enumerate() {
            if i == load_at {
                chip.load(page);
            }
            if !refused {
                chip.step(o);
            }
        }
        if load_at == told.len() {
            chip.load(page);
        }
        held.extend(chip.held(page));
    }
    held
}

/// Whether two entries differ in this alone, that one came from a section.
fn is_split(x: Entry, y: Entry) -> bool {
    let section = y.section;
    x.section != section && Entry { section, ..x } == y
}

/// Whether two entries differ in this alone, that one is global.
fn is_turned(x: Entry, y: Entry) -> bool {
    let global = y.global;
    x.global != global && Entry { global, ..x } == y
}

/// Whether two entries differ in XN alone.
fn is_xn_changed(x: Entry, y: Entry) -> bool {
    let xn = y.xn;
    x.xn != xn && Entry { xn, ..x } == y
}

/// Whether two entries differ in the domain alone.
fn is_domain_changed(x: Entry, y: Entry) -> bool {
    let domain = y.domain;
    x.domain != domain && Entry { domain, ..x } == y
}

/// What makes a page stale: by its sets, and of these such as are easily forgotten.
#[derive(Clone, Copy, PartialEq, Eq, PartialOrd, Ord, Debug)]
enum Stale {
    Not,
    /// Its context's set, and not its global set.
    OwnSetAlone,
    /// Its global set, and not its context's.
    GlobalSetAlone,
    BothSets,
    /// Entries that differ from the present one in this alone, that one came from a section.
    SectionAlone,
    /// Entries that differ from the present one in this alone, that one is global.
    NgAlone,
    /// Entries that differ from the present one in XN alone: of a section, or of a page.
    XnAlone {
        section: bool,
    },
    /// Entries that differ from the present one in the domain alone: of a section, or of a page.
    DomainAlone {
        section: bool,
    },
    /// Entries that were all loaded in other contexts.
    LoadedElsewhere,
}

const STALE: [Stale; 11] = [
    Stale::Not,
    Stale::OwnSetAlone,
    Stale::GlobalSetAlone,
    Stale::BothSets,
    Stale::SectionAlone,
    Stale::NgAlone,
    Stale::XnAlone { section: false },
    Stale::XnAlone { section: true },
    Stale::DomainAlone { section: false },
    Stale::DomainAlone { section: true },
    Stale::LoadedElsewhere,
];

/// The kinds of a page, by the entries that a TLB can hold for it other than the present outcome.
fn kinds(others: &[Held], present: Option<Entry>, context: u32) -> Vec<Stale> {
    if others.is_empty() {
        return vec![Stale::Not];
    }
    let any = |global| others.iter().any(|h| h.entry.global == global);
    let all = |differ: fn(Entry, Entry) -> bool| {
        present.is_some_and(|p| others.iter().all(|h| differ(h.entry, p)))
    };
    let section = present.is_some_and(|p| p.section);
    [
        (Stale::OwnSetAlone, any(false) && !any(true)),
        (Stale::GlobalSetAlone, any(true) && !any(false)),
        (Stale::BothSets, any(true) && any(false)),
        (Stale::SectionAlone, all(is_split)),
        (Stale::NgAlone, all(is_turned)),
        (Stale::XnAlone { section }, all(is_xn_changed)),
        (Stale::DomainAlone { section }, all(is_domain_changed)),
        (
            Stale::LoadedElsewhere,
            others.iter().all(|h| h.context != context),
        ),
    ]
    .into_iter()
    .filter_map(|(kind, holds)| holds.then_some(kind))
    .collect()
}

#[test]
fn stale_is_what_a_tlb_can_reach() {
    let mut seen = Tally::new();
    for (case, mut random) in cases(600) {
        let image = generate::image(&mut random);
        let root = *random.pick(&generate::ROOTS);
        let mut machine = start(&image, root);
        let length = 4 + random.below(14);
        let list = operations(&mut random, CONTEXTS, image.len() as u32, length);
        let mut told = Vec::new();
        for o in &list {
            let answer = machine.step(o);
            told.push((*o, matches!(answer, Answer::Refused(_))));
        }
        for page in PAGES {
            let at = page << 12;
            let present = machine.outcome(at).ok();
            let mut others = reachable(&image, root, &told, page);
            others.retain(|held| Some(held.entry) != present);
            let could = !others.is_empty();
            for kind in ACCESSES {
                let access = op(kind, at, 4, 0);
                let refused = machine.clone().step(&access) == Answer::Refused(16);
                if could != refused {
                    let what = format!("{access:x?}: a TLB could: {could}, refused: {refused}");
                    fail(case, &image, &list, &what);
                }
            }
            let scopes: BTreeSet<Scope> = others.iter().map(Held::scope).collect();
            let sets: BTreeSet<Scope> = machine.stale_in(at).into_iter().collect();
            if scopes != sets {
                let what = format!("page {page:#x}: a TLB: {scopes:?}, the sets: {sets:?}");
                fail(case, &image, &list, &what);
            }
            let kinds = kinds(&others, present, machine.registers.context);
            kinds.into_iter().for_each(|kind| seen.add(kind));
        }
    }
    seen.must_have("pages, stale by", STALE);
}

/// A chip fetches by the XN of the entry that it holds, and the plain machine by that of the tables:
/// once XN alone has changed they differ, in the fetch and not in the read, and the checker refuses
/// both. It still does when the old word is back, as a chip may by then hold the other entry.
#[test]
fn a_fetch_goes_by_the_xn_of_the_held_entry() {
    let (read, fetch) = (op(Kind::Read, 0x1000, 4, 0), op(Kind::Fetch, 0x1000, 0, 0));
    let (word, stopped) = (
        Answer::Ok(0x1234_5678),
        Answer::Fault(fault::PERMISSION_PAGE),
    );
    for (old, new, held, walked) in [
        (0x3832, 0x3833, word, stopped),
        (0x3833, 0x3832, stopped, word),
    ] {
        let mut image = generate::image_a();
        image[0x404..0x408].copy_from_slice(&u32::to_le_bytes(old));
        let mut machine = start(&image, 0);
        let mut plain = Plain::new(&image, 0);
        let mut chip = Chip::new(&image, 0, 1);
        chip.load(1);
        for (stored, by_plain) in [(new, walked), (old, held)] {
            let store = op(Kind::Write, 0x404, 4, stored);
            let stores = [machine.step(&store), plain.step(&store), chip.step(&store)];
            assert_eq!(stores, [Answer::Ok(0); 3]);
            assert_eq!([plain.step(&read), chip.step(&read)], [word; 2]);
            assert_eq!([plain.step(&fetch), chip.step(&fetch)], [by_plain, held]);
            let refused = [read, fetch].map(|o| machine.step(&o));
            assert_eq!(refused, [Answer::Refused(16); 2], "{stored:x}");
        }
    }
}

/// A chip that holds an entry since a start, the plain machine and the checker, given the same
/// operations.
struct Three {
    machine: Machine,
    plain: Plain,
    chip: Chip,
}

impl Three {
    /// On image A with these words put in, the entry of a page held.
    fn holding(page: u32, words: &[(usize, u32)]) -> Three {
        let mut image = generate::image_a();
        for (at, word) in words {
            image[*at..*at + 4].copy_from_slice(&word.to_le_bytes());
        }
        let mut chip = Chip::new(&image, 0, 1);
        chip.load(page);
        assert!(chip.held(page).is_some());
        Three {
            machine: start(&image, 0),
            plain: Plain::new(&image, 0),
            chip,
        }
    }

    /// What the checker, the plain machine and the chip answer.
    fn step(&mut self, o: Operation) -> [Answer; 3] {
        [
            self.machine.step(&o),
            self.plain.step(&o),
            self.chip.step(&o),
        ]
    }
}

/// A chip does not remember the domain register: the entry that it holds goes by the register of
/// the time of the access, as the plain machine does, and the checker refuses nothing. By a page
/// without rights, and by a section.
#[test]
fn a_held_entry_goes_by_the_register_of_the_time_of_the_access() {
    let value = Answer::Ok(0x1234_5678);
    for (page, words, by_field) in [
        (1, [(0x404, 0x3802)], [0xb, 0xf]),
        (259, [(0x4, 0x2_0002)], [0x9, 0xd]),
    ] {
        let [closed, stopped] = by_field.map(Answer::Fault);
        let mut three = Three::holding(page, &words);
        for (domains, expected) in [
            (CLIENTS, stopped),
            (CLIENTS ^ 1, closed),
            (CLIENTS ^ 2, value),
            (0xFFFF_FFFC, closed),
            (0x3, value),
            (0x1, stopped),
        ] {
            let set = op(Kind::Domain, domains, 0, 0);
            assert_eq!(three.step(set), [Answer::Ok(0); 3]);
            for access in [
                op(Kind::Read, page << 12, 4, 0),
                op(Kind::Fetch, page << 12, 0, 0),
                op(Kind::Write, page << 12, 4, 0x1234_5678),
            ] {
                let ended = match (access.kind, expected) {
                    (Kind::Write, Answer::Ok(_)) => Answer::Ok(0),
                    (_, other) => other,
                };
                let found = three.step(access);
                assert_eq!(found, [ended; 3], "{access:x?}, {domains:#x}");
            }
        }
    }
}

/// A chip goes by the domain of the entry that it holds, and the plain machine by that of the
/// tables: once the domain alone has changed they differ where the fields do, and the checker
/// refuses, with every register.
#[test]
fn the_domain_of_the_held_entry_decides() {
    let value = Answer::Ok(0x1234_5678);
    // Domain 0 becomes domain 1.
    for (page, at, word, fault) in [
        (1, 0x0, 0x421, fault::DOMAIN_PAGE),
        (259, 0x4, 0x2_0C22, fault::DOMAIN_SECTION),
    ] {
        let closed = Answer::Fault(fault);
        let mut three = Three::holding(page, &[(0x4, 0x2_0C02)]);
        let store = op(Kind::Write, at, 4, word);
        assert_eq!(three.step(store), [Answer::Ok(0); 3]);
        for (domains, by_plain, by_chip) in [
            (CLIENTS, value, value),
            (CLIENTS ^ 1, value, closed),
            (CLIENTS ^ 1 << 2, closed, value),
            (0, closed, closed),
            (u32::MAX, value, value),
        ] {
            let set = op(Kind::Domain, domains, 0, 0);
            assert_eq!(three.step(set), [Answer::Ok(0); 3]);
            let found = three.step(op(Kind::Read, page << 12, 4, 0));
            let expected = [Answer::Refused(16), by_plain, by_chip];
            assert_eq!(found, expected, "page {page}, {domains:#x}");
        }
    }
}
