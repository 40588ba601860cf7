//! Start and single steps through the C functions against the model, on lent states of every kind:
//! answers, registers, memory and track compared whole.
use compare::{cases, keep, Tally};
use model::generate::{self, damaged, operation, operations, with_field, with_reserved, PAGES};
use model::machine::{field, reserved, Answer, Kind, Machine, Operation, Registers, CLIENTS};
use model::random::Random;
use model::walk::{fault, walk, word, Entry, Fault};

/// The bits of an entry of a section, and of one with XN set.
const SECTION: u64 = 1 << 8;
const XN: u64 = 1 << 6;

/// The domain of an entry, by its track word.
fn domain(entry: u64) -> u32 {
    (entry >> 2 & 0xF) as u32
}

fn number(answer: Answer) -> u64 {
    match answer {
        Answer::Ok(v) => u64::from(v),
        Answer::Fault(n) => 0x1_0000_0000 + u64::from(n),
        Answer::Refused(n) => 0x2_0000_0000 + u64::from(n),
    }
}

/// A lent state: sometimes of a wrong length, with odd track words, with registers out of range.
struct Lent {
    memory: Vec<u8>,
    track: Vec<u32>,
    registers: Registers,
}

/// Puts an odd word into a track of whole rows, or one that another page or row could hold.
fn spoil(random: &mut Random, track: &mut [u32]) {
    let rows = track.len() / 1024;
    let page = match random.below(2) {
        0 => random.below(1024) as usize,
        _ => *random.pick(&PAGES) as usize,
    };
    let row = |random: &mut Random| match random.below(3) {
        0 => rows - 1,
        _ => random.below(rows as u64) as usize,
    };
    let at = row(random) * 1024 + page;
    track[at] = match random.below(19) {
        0 => random.word(),
        1 => 1,
        // For one entry, if bit 7 suits the row.
        2 => random.word() & !3 | 2,
        3 => *random.pick(&[3, 7, 0x80, 0x81, 0x83, 0xC2, 0x100, 0x106, 0x182, u32::MAX]),
        4 => *random.pick(&[0x40, 0x41, 0x42, 0x43, 0x3C, 0x3D, 0x3E, 0x3F, 0x142, 0x1C2]),
        // Of a page in place of a section, or the other way round.
        5 => track[at] ^ 0x100,
        // Of the other kind of row.
        6 => track[at] ^ 0x80,
        // With XN the other way.
        7 => track[at] ^ 0x40,
        // Of another domain.
        8..=12 => track[at] ^ 4 << random.below(4),
        // With a bit that no entry has, or without one that each has.
        13..=14 => track[at] ^ *random.pick(&[1, 2]),
        15..=17 => track[row(random) * 1024 + page],
        _ => 0,
    };
}

/// Registers in range, on a machine with this many contexts; the root more often than not this one.
fn registers(random: &mut Random, contexts: u32, root: u32) -> Registers {
    let domains = if random.one_in(3) {
        generate::any_domains(random)
    } else {
        generate::domains(random)
    };
    Registers {
        root: match random.below(2) {
            0 => root,
            _ => *random.pick(&generate::ROOTS),
        },
        context: random.below(u64::from(contexts)) as u32,
        mode: u32::from(random.one_in(4)),
        domains,
    }
}

/// Gives a state a wrong length or a register out of range, now and then.
fn damage(random: &mut Random, lent: &mut Lent) {
    let contexts = lent.contexts();
    let Lent {
        memory,
        track,
        registers,
    } = lent;
    match random.below(28) {
        0 => registers.root = random.word(),
        // The number of contexts, which is that of the global row, or the number of rows.
        1 => registers.context = contexts + random.below(2) as u32,
        2 => registers.mode = 2 + random.word() % 3,
        3 => memory.truncate(memory.len() - 1 - random.below(4000) as usize),
        4 => track.truncate(track.len() - 1 - random.below(1000) as usize),
        5 => track.truncate(*random.pick(&[0, 1024])),
        6 => registers.root = memory.len() as u32,
        7 => track.resize(258 * 1024, 0),
        8 => registers.domains = with_reserved(random, registers.domains),
        9 => registers.domains = random.word(),
        _ => (),
    }
}

fn lent(random: &mut Random) -> Lent {
    let image = generate::image(random);
    let contexts = match random.below(30) {
        0 => 256,
        _ => *random.pick(&[1, 1, 2, 2, 3, 3, 8]),
    };
    let root = *random.pick(&generate::ROOTS);
    let (_, mut machine) = Machine::start(&image, &vec![0; (contexts + 1) * 1024], root);
    let before = random.below(6);
    for o in operations(random, contexts as u32, image.len() as u32, before) {
        machine.step(&o);
    }
    let mut track = machine.track();
    let most = *random.pick(&[12, 60]);
    for _ in 0..random.below(most) {
        spoil(random, &mut track);
    }
    let mut lent = Lent {
        memory: machine.memory.clone(),
        track,
        registers: registers(random, contexts as u32, machine.registers.root),
    };
    damage(random, &mut lent);
    lent
}

impl Lent {
    fn machine(&self) -> Machine {
        Machine::lent(&self.memory, &self.track, self.registers)
    }

    fn contexts(&self) -> u32 {
        (self.track.len() / 1024).saturating_sub(1) as u32
    }

    /// The rows of the track, if they are whole.
    fn rows(&self) -> Option<usize> {
        let length = self.track.len();
        length.is_multiple_of(1024).then_some(length / 1024)
    }

    fn outcome(&self, address: u32) -> Result<Entry, Fault> {
        walk(&self.memory, self.registers.root, address)
    }

    /// The words that a page has in the row to which an entry belongs, of the current context's and
    /// the global one, and in the other.
    fn words_for(&self, page: u32, entry: Entry) -> (u32, u32) {
        let of = |row: u32| self.track[(row * 1024 + page) as usize];
        let (own, global) = (of(self.registers.context), of(self.contexts()));
        if entry.global {
            (global, own)
        } else {
            (own, global)
        }
    }

    /// Whether a page is stale only because the word of its present entry stands in a row of the
    /// other kind: in the current context's row, or in the global one.
    fn wrong_row(&self, page: u32) -> Option<Wrong> {
        let present = self.outcome(page << 12).ok()?;
        let (here, other) = self.words_for(page, present);
        let wrong = if present.global {
            Wrong::GlobalEntry
        } else {
            Wrong::OwnEntry
        };
        let sole = word(present);
        (other == sole && (here == sole || here == 0)).then_some(wrong)
    }

    /// The bit in which the word that makes a page stale differs from that of its present entry, if
    /// it is one alone.
    fn other_bit(&self, page: u32) -> Option<u32> {
        let present = self.outcome(page << 12).ok()?;
        let (here, other) = self.words_for(page, present);
        let differ = here ^ word(present);
        (other == 0 && differ.is_power_of_two()).then(|| differ.trailing_zeros())
    }
}

/// Which word stands in a row of the other kind.
#[derive(Clone, Copy, PartialEq, Eq, PartialOrd, Ord, Debug)]
enum Wrong {
    GlobalEntry,
    OwnEntry,
}

fn words(r: Registers) -> [u32; 4] {
    [r.root, r.context, r.mode, r.domains]
}

fn operation_words(o: &Operation) -> [u32; 4] {
    [o.kind as u32, o.a, o.b, o.c]
}

/// What a step by the C function answers, and the registers, the memory and the track that it
/// leaves.
type Left = (u64, [u32; 4], Vec<u8>, Vec<u32>);

/// The step of a lent state by the C function.
fn stepped(lent: &Lent, operation: [u32; 4]) -> Left {
    let mut registers = words(lent.registers);
    let (mut memory, mut track) = (lent.memory.clone(), lent.track.clone());
    let answer = calls::step(&operation, &mut registers, &mut memory, &mut track);
    (answer, registers, memory, track)
}

fn fail(name: &str, case: u64, lent: &Lent, what: &str) -> ! {
    let track: Vec<u8> = lent.track.iter().flat_map(|w| w.to_le_bytes()).collect();
    let folder = keep(name, case, &[("memory", &lent.memory), ("track", &track)]);
    panic!(
        "{what}, with {:x?}; memory and track are in {}",
        lent.registers,
        folder.display()
    );
}

/// Compares one step, and returns the answer.
fn compare(case: u64, lent: &Lent, o: &Operation) -> Answer {
    let mut machine = lent.machine();
    let expected = machine.step(o);
    let (registers, track) = (words(machine.registers), machine.track());
    let found = stepped(lent, operation_words(o));
    if found != (number(expected), registers, machine.memory, track) {
        let what = format!("{o:x?}: the model {expected:x?}, the code {:#x}", found.0);
        fail("step", case, lent, &what);
    }
    expected
}

/// What steps were tried at the edges of the rules about rows and their words, and about domain
/// registers.
#[derive(Default)]
struct Edges {
    /// The rows of a track, if they are whole, and whether the step gave 13.
    rows: Tally<(Option<usize>, bool)>,
    /// Steps refused for a context that is the number of contexts, or one that is the number of
    /// rows: 14 and the register, or 11 and the operation's.
    contexts: Tally<(u32, u32)>,
    /// Aligned accesses refused for a word in a row of the other kind.
    wrong: Tally<Wrong>,
    /// Aligned accesses refused for a word that differs from the right one in one bit.
    bits: Tally<u32>,
    /// Steps refused for one field that is 2 and nothing else: 14 and the register's, or 17 and the
    /// operation's, with its domain.
    fields: Tally<(u32, u32)>,
}

impl Edges {
    fn add(&mut self, lent: &Lent, o: &Operation, answer: Answer) {
        self.rows.add((lent.rows(), answer == Answer::Refused(13)));
        let named = match o.kind {
            Kind::AddrCtx => o.b,
            _ => o.a,
        };
        match answer {
            Answer::Refused(14) => {
                let over = lent.registers.context.wrapping_sub(lent.contexts());
                self.contexts.add((14, over.min(2)));
                let rest = Registers {
                    domains: CLIENTS,
                    ..lent.registers
                };
                if rest.in_range(lent.contexts()) {
                    self.add_field(14, lent.registers.domains);
                }
            }
            Answer::Refused(17) => self.add_field(17, o.a),
            Answer::Refused(11) => {
                let over = named.wrapping_sub(lent.contexts());
                self.contexts.add((11, over.min(2)));
            }
            Answer::Refused(16) => {
                if let Some(wrong) = lent.wrong_row(o.a >> 12) {
                    self.wrong.add(wrong);
                }
                if let Some(bit) = lent.other_bit(o.a >> 12) {
                    self.bits.add(bit);
                }
            }
            _ => (),
        }
    }

    /// Adds a refusal for a domain register, if one field of it is 2.
    fn add_field(&mut self, number: u32, domains: u32) {
        if let [domain] = reserved(domains)[..] {
            self.fields.add((number, domain));
        }
    }

    fn must_have(&self) {
        let refused = [Some(0), Some(1), Some(258), None].map(|rows| (rows, true));
        let fit = [Some(2), Some(9), Some(257)].map(|rows| (rows, false));
        self.rows
            .must_have("rows lent", refused.into_iter().chain(fit));
        let contexts = [(14, 0), (14, 1), (11, 0), (11, 1)];
        self.contexts
            .must_have("contexts over their number", contexts);
        let wrong = [Wrong::GlobalEntry, Wrong::OwnEntry];
        self.wrong
            .must_have("words in a row of the other kind", wrong);
        // The bits that words for one entry have alike in a row, the domain, XN, and whether a
        // section maps it.
        self.bits.must_have("words that differ in one bit", 0..=8);
        let fields = [(14, 0), (14, 15), (17, 0), (17, 15)];
        self.fields.must_have("fields that are 2", fields);
    }
}

/// Pairs of checks that often fail at once, in the order of the rules.
const PAIRS: [(u32, u32); 15] = [
    (13, 14),
    (13, 7),
    (13, 17),
    (13, 20),
    (14, 8),
    (14, 17),
    (14, 20),
    (7, 8),
    (8, 9),
    (8, 15),
    (10, 15),
    (10, 20),
    (11, 15),
    (17, 15),
    (15, 20),
];

/// What steps answered.
#[derive(Default)]
struct Answers {
    all: Tally<Answer>,
    /// Of fetches, in any mode and in this one.
    fetches: Tally<(Option<u32>, Answer)>,
    /// Of `domain`, in this mode.
    domains: Tally<(u32, Answer)>,
    /// Of `root` in kernel mode: whether the context is 0, and whether it is another root than the
    /// one held.
    roots: Tally<(bool, bool, Answer)>,
    /// Two checks that both fail.
    pairs: Tally<(u32, u32)>,
}

impl Answers {
    /// Adds what an operation answers on a machine.
    fn add(&mut self, machine: &Machine, o: &Operation, answer: Answer) {
        let kept = match answer {
            Answer::Ok(_) => Answer::Ok(0),
            other => other,
        };
        self.all.add(kept);
        let Registers { root, mode, .. } = machine.registers;
        let in_0 = machine.registers.context == 0;
        match o.kind {
            Kind::Fetch => {
                self.fetches.add((None, kept));
                self.fetches.add((Some(mode), kept));
            }
            Kind::Domain => self.domains.add((mode, kept)),
            Kind::Root if mode == 0 => self.roots.add((in_0, o.a != root, kept)),
            _ => (),
        }
        let failing = machine.conditions(o);
        for (i, first) in failing.iter().enumerate() {
            for second in &failing[i + 1..] {
                self.pairs.add((*first, *second));
            }
        }
    }

    fn must_have(&self) {
        let faults = || {
            let faults = fault::OF_WALKS.into_iter().chain(fault::OF_ACCESSES);
            faults.map(Answer::Fault)
        };
        let refusals = (7..=17).chain([20]).map(Answer::Refused);
        self.all.must_have("steps", faults().chain(refusals));
        self.pairs
            .must_have("pairs of checks failing at once", PAIRS);
        let refused = [13, 14, 8, 16].map(Answer::Refused);
        let each = faults().chain(refused).map(|answer| (None, answer));
        let stopped = [fault::ALIGNMENT, fault::DOMAIN_PAGE, fault::PERMISSION_PAGE];
        let in_mode = |mode| {
            let ended = [Answer::Ok(0)]
                .into_iter()
                .chain(stopped.map(Answer::Fault));
            ended.chain(refused).map(move |answer| (Some(mode), answer))
        };
        let fetched = each.chain(in_mode(0)).chain(in_mode(1));
        self.fetches.must_have("fetches, by mode", fetched);
        self.registers_must_have();
    }

    /// What operations that set a register must have answered.
    fn registers_must_have(&self) {
        let kernel = [Answer::Ok(0), Answer::Refused(14), Answer::Refused(17)];
        let user = [14, 15, 17].map(Answer::Refused);
        let set = kernel
            .map(|a| (0, a))
            .into_iter()
            .chain(user.map(|a| (1, a)));
        self.domains.must_have("domain, by mode", set);
        let in_0 = [false, true].map(|another| (true, another, Answer::Ok(0)));
        let elsewhere = [false, true].map(|another| (false, another, Answer::Refused(20)));
        let no_root = [true, false].map(|in_0| (in_0, true, Answer::Refused(10)));
        let roots = [in_0, elsewhere, no_root].concat();
        self.roots
            .must_have("root in kernel mode, in context 0, of another", roots);
    }
}

#[test]
fn single_steps_on_lent_states() {
    let mut answers = Answers::default();
    let mut edges = Edges::default();
    for (case, mut random) in cases(2_000) {
        let lent = lent(&mut random);
        let machine = lent.machine();
        let contexts = lent.contexts().max(1);
        for _ in 0..12 {
            let o = operation(&mut random, contexts, lent.memory.len() as u32);
            let mut o = damaged(&mut random, contexts, o);
            if random.one_in(4) {
                (o.b, o.c) = (o.b ^ random.word() & 4, random.word());
            }
            let answer = compare(case, &lent, &o);
            edges.add(&lent, &o, answer);
            answers.add(&machine, &o, answer);
        }
    }
    answers.must_have();
    edges.must_have();
}

fn faulted(n: u32) -> u64 {
    number(Answer::Fault(n))
}

/// A fault by whether a section maps the page.
fn by_section(entry: u64, section: u32, page: u32) -> u64 {
    faulted(if entry & SECTION == 0 { page } else { section })
}

/// An address: mostly an aligned one of a page that lists touch, and more often than not of one
/// behind the first MiB, which sections may map.
fn address(random: &mut Random) -> u32 {
    let pages = if random.one_in(2) {
        &PAGES[..]
    } else {
        &PAGES[8..]
    };
    let page = *random.pick(pages);
    match random.below(8) {
        0 => random.word(),
        1 => page << 12 | (random.word() & 0xFFF),
        _ => page << 12 | (random.word() & 0xFFC),
    }
}

/// A fetch leaves what a read of four bytes leaves, and answers the same unless the page's entry has
/// XN set and the field of its domain is 1: then an aligned one that is not refused is a permission
/// fault. The single walk tells XN, the domain and whether it is a section's, so this holds of the
/// code by itself.
#[test]
fn a_fetch_is_a_read_but_for_xn() {
    let mut seen = Tally::new();
    for (case, mut random) in cases(1_200) {
        let lent = lent(&mut random);
        for _ in 0..6 {
            let at = address(&mut random);
            let (read, registers, memory, track) = stepped(&lent, [Kind::Read as u32, at, 4, 0]);
            let entry = calls::walk(&lent.memory, lent.registers.root, at);
            let looks = field(lent.registers.domains, domain(entry)) == 1;
            let carried_out = read >> 32 != 2 && read != faulted(fault::ALIGNMENT);
            let stopped = entry & XN != 0 && looks && carried_out;
            let answer = if stopped {
                by_section(entry, fault::PERMISSION_SECTION, fault::PERMISSION_PAGE)
            } else {
                read
            };
            let unused = [random.word(), random.word()];
            let fetch = stepped(&lent, [Kind::Fetch as u32, at, unused[0], unused[1]]);
            if fetch != (answer, registers, memory, track) {
                let answers = format!("a read {read:#x}, a fetch {:#x}", fetch.0);
                let what = format!("address {at:#x}: {answers}, the walk {entry:#x}");
                fail("fetch", case, &lent, &what);
            }
            seen.add((stopped, read >> 32, entry & SECTION != 0));
        }
    }
    let each = [(false, 0), (false, 1), (false, 2), (true, 0), (true, 1)];
    let by = |section| each.map(|(stopped, read)| (stopped, read, section));
    seen.must_have(
        "stopped by XN, read, section",
        [by(false), by(true)].concat(),
    );
}

/// Whether an access with this answer was translated: it was not refused, and met no fault of
/// alignment or of the walk.
fn is_translated(answer: u64) -> bool {
    let mut before = fault::OF_WALKS.into_iter().chain([fault::ALIGNMENT]);
    answer >> 32 != 2 && before.all(|n| answer != faulted(n))
}

/// Whether the field of an entry's domain did what it has to, by what an access left with the
/// fields 0, 1 and 3: with 0 one that is translated is a domain fault, with 3 one that permission
/// stopped goes on to the bytes, and else all are alike.
fn field_decides(lent: &Lent, entry: u64, [closed, client, manager]: &[Left; 3]) -> bool {
    let (answer, _, memory, track) = client;
    let stopped = by_section(entry, fault::PERMISSION_SECTION, fault::PERMISSION_PAGE);
    let by_closed = if is_translated(*answer) {
        closed.0 == by_section(entry, fault::DOMAIN_SECTION, fault::DOMAIN_PAGE)
    } else {
        (closed.0, &closed.3) == (*answer, track)
    };
    let by_manager = if *answer == stopped {
        manager.0 >> 32 == 0 || manager.0 == faulted(fault::ACCESS_OUTSIDE)
    } else {
        (manager.0, &manager.2, &manager.3) == (*answer, memory, track)
    };
    by_closed && by_manager && closed.2 == lent.memory
}

/// An access goes by the field of its entry's domain and by no other field. The single walk tells
/// the domain and whether it is a section's, so this holds of the code by itself.
#[test]
fn an_access_goes_by_the_field_of_its_domain() {
    let mut translated = Tally::new();
    let mut stopped = Tally::new();
    let kinds = [Kind::Read, Kind::Write, Kind::Fetch];
    for (case, mut random) in cases(1_200) {
        let mut lent = lent(&mut random);
        for _ in 0..6 {
            let (kind, at) = (*random.pick(&kinds), address(&mut random));
            let access = [kind as u32, at, 4, random.word()];
            let entry = calls::walk(&lent.memory, lent.registers.root, at);
            let left = [0, 1, 3].map(|field| {
                // The other fields differ from one access to the next.
                let others = generate::any_domains(&mut random);
                lent.registers.domains = with_field(others, domain(entry), field);
                stepped(&lent, access)
            });
            let answers = [0, 1, 2].map(|i: usize| left[i].0);
            if !field_decides(&lent, entry, &left) {
                let what = format!("{access:x?}: {answers:x?}, the walk {entry:#x}");
                fail("field", case, &lent, &what);
            }
            let (section, mode) = (entry & SECTION != 0, lent.registers.mode);
            if is_translated(answers[1]) {
                translated.add((kind, section, mode));
            }
            if answers[1] != answers[2] {
                stopped.add((section, mode));
            }
        }
    }
    let each = [(false, 0), (false, 1), (true, 0), (true, 1)];
    let by = |kind| each.map(|(section, mode)| (kind, section, mode));
    translated.must_have("translated, by section, mode", kinds.map(by).concat());
    stopped.must_have("stopped with field 1 alone, by section, mode", each);
}

/// A new root: mostly one that may be set, and often the one that is held.
fn root(random: &mut Random, held: u32) -> u32 {
    match random.below(8) {
        0 => random.word(),
        1 => random.word() & !0x7F,
        2..=3 => held,
        _ => *random.pick(&generate::ROOTS),
    }
}

/// Under another context than 0, `root` is refused by 20 where it is set under context 0, and by
/// the same number where it is refused there; it leaves everything. This holds of the code by
/// itself.
#[test]
fn a_root_under_another_context() {
    let mut seen = Tally::new();
    for (case, mut random) in cases(2_000) {
        let mut lent = lent(&mut random);
        // Of one context or none there is no other.
        let others = u64::from(lent.contexts()).saturating_sub(1);
        if others == 0 {
            continue;
        }
        let held = lent.registers.root;
        let new = root(&mut random, held);
        let operation = [Kind::Root as u32, new, random.word(), random.word()];
        lent.registers.context = 0;
        let (in_0, ..) = stepped(&lent, operation);
        lent.registers.context = 1 + random.below(others) as u32;
        let answer = match in_0 {
            0 => number(Answer::Refused(20)),
            refused => refused,
        };
        let (memory, track) = (lent.memory.clone(), lent.track.clone());
        let found = stepped(&lent, operation);
        if found != (answer, words(lent.registers), memory, track) {
            let what = format!("{operation:x?}: {:#x}, in context 0 {in_0:#x}", found.0);
            fail("root", case, &lent, &what);
        }
        seen.add((in_0 >> 32, in_0 as u32, new == held));
    }
    let set = [false, true].map(|same| (0, 0, same));
    let refused = [13, 14, 10, 15].map(|n| (2, n, false));
    seen.must_have(
        "in context 0, the root held",
        set.into_iter().chain(refused),
    );
}

#[test]
fn starts_on_lent_states() {
    let mut seen = Tally::new();
    for (case, mut random) in cases(600) {
        let Lent { memory, track, .. } = lent(&mut random);
        let root = match random.below(4) {
            0 => random.word(),
            _ => *random.pick(&generate::ROOTS),
        };
        let (expected, machine) = Machine::start(&memory, &track, root);
        let (mut registers, mut left) = ([7; 4], track.clone());
        let found = calls::start(&memory, &mut left, root, &mut registers);
        let same = found == number(expected)
            && registers == words(machine.registers)
            && left == machine.track();
        if !same {
            let folder = keep("start", case, &[("memory", &memory)]);
            panic!(
                "a start with root {root:#x} and {} track words: the model {expected:x?}, the \
                 code {found:#x}; memory is in {}",
                track.len(),
                folder.display()
            );
        }
        seen.add(expected);
    }
    seen.must_have(
        "starts",
        [Answer::Ok(0), Answer::Refused(13), Answer::Refused(10)],
    );
}
