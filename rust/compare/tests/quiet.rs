//! The program against the model on stores at the edge of what walks use. After a store that
//! touches no byte that a present walk uses, a quiet one, the program notes no page; nothing of
//! that may show. On generated lists, and on lists of which each answer is told here.
use compare::{cases, image, lines, same_report, Tally};
use model::chip::Plain;
use model::generate::{self, ROOTS};
use model::generate_stores::stores;
use model::machine::{Kind, Operation};
use model::walk::{number, Entry, Fault};
use std::collections::BTreeMap;

/// What a store touches, by the walks of the time before it.
#[derive(Clone, Copy, PartialEq, Eq, PartialOrd, Ord, Debug)]
enum Touched {
    /// A level-one word of the window, of a MiB that it maps or of one that it does not.
    LevelOne { mapped: bool },
    /// A table that such a word points to.
    Table,
    /// No byte that a walk uses.
    Quiet(Bytes),
}

/// Bytes that no present walk uses, by what they are in generated images.
#[derive(Clone, Copy, PartialEq, Eq, PartialOrd, Ord, Debug)]
enum Bytes {
    /// The level-one words of the present root behind those of the window.
    AboveTheWindow,
    /// The level-one words of the window by another root.
    AnotherRoot,
    /// Words of the tables that no level-one word points to now.
    AnotherTable,
    Data,
}

const USED: [Touched; 3] = [
    Touched::LevelOne { mapped: false },
    Touched::LevelOne { mapped: true },
    Touched::Table,
];

const QUIET: [Touched; 4] = [
    Touched::Quiet(Bytes::AboveTheWindow),
    Touched::Quiet(Bytes::AnotherRoot),
    Touched::Quiet(Bytes::AnotherTable),
    Touched::Quiet(Bytes::Data),
];

/// A word at the edge of the bytes that walks use.
#[derive(Clone, Copy, PartialEq, Eq, PartialOrd, Ord, Debug)]
enum Edge {
    LastOfTheWindow,
    BehindTheWindow,
    FirstOfATable,
    LastOfATable,
    /// Right before a table in use, and in none.
    BeforeATable,
    /// Right behind a table in use, and in none.
    BehindATable,
}

const EDGES: [Edge; 6] = [
    Edge::LastOfTheWindow,
    Edge::BehindTheWindow,
    Edge::FirstOfATable,
    Edge::LastOfATable,
    Edge::BeforeATable,
    Edge::BehindATable,
];

/// How an operation ended.
#[derive(Clone, Copy, PartialEq, Eq, PartialOrd, Ord, Debug)]
enum Ended {
    Ok,
    Faulted,
    /// Refused as stale.
    Stale,
    Refused,
}

/// How an operation ended, by its line of a report.
fn ended(said: &str) -> Ended {
    let fields: Vec<&str> = said.split(',').collect();
    match fields[2..] {
        ["ok", _] => Ended::Ok,
        ["fault", _] => Ended::Faulted,
        ["refused", "10"] => Ended::Stale,
        _ => Ended::Refused,
    }
}

/// Where the level-one words of the window stand, and the words; outside memory they map nothing.
fn level_one(plain: &Plain) -> [(u32, u32); 4] {
    [0, 1, 2, 3].map(|mib| {
        let at = plain.registers.root + 4 * mib;
        let word = number(&plain.memory, u64::from(at), 4);
        (at, word.unwrap_or(0))
    })
}

/// The table that a level-one word points to.
fn table(word: u32) -> Option<u32> {
    (word & 3 == 1).then_some(word & 0xFFFF_FC00)
}

/// Whether a level-one word points to a table or is a section.
fn maps(word: u32) -> bool {
    table(word).is_some() || word & 3 == 2 && word & 1 << 18 == 0
}

/// What a byte is to the walks of a machine. Stores are aligned and words too, so that each byte of
/// a store is the same.
fn touched(plain: &Plain, at: u32) -> Touched {
    let words = level_one(plain);
    let within = |from: u32, length: u32| at.wrapping_sub(from) < length;
    if let Some((_, word)) = words.into_iter().find(|(first, _)| within(*first, 4)) {
        return Touched::LevelOne { mapped: maps(word) };
    }
    let mut tables = words.into_iter().filter_map(|(_, word)| table(word));
    if tables.any(|table| within(table, 0x400)) {
        return Touched::Table;
    }
    let root = plain.registers.root;
    Touched::Quiet(if within(root + 0x10, 0x70) {
        Bytes::AboveTheWindow
    } else if ROOTS.into_iter().any(|other| within(other, 0x10)) {
        Bytes::AnotherRoot
    } else if (0x400..0x2000).contains(&at) {
        Bytes::AnotherTable
    } else {
        Bytes::Data
    })
}

/// The edges at which a word stands that a store touches.
fn edges(plain: &Plain, word: u32, touched: Touched) -> Vec<Edge> {
    let root = plain.registers.root;
    let tables = level_one(plain).map(|(_, word)| table(word));
    let any = |edge: fn(u32) -> u32| tables.into_iter().flatten().any(|t| edge(t) == word);
    let quiet = matches!(touched, Touched::Quiet(_));
    [
        (Edge::LastOfTheWindow, word == root + 0xC),
        (Edge::BehindTheWindow, word == root + 0x10),
        (Edge::FirstOfATable, any(|t| t)),
        (Edge::LastOfATable, any(|t| t + 0x3FC)),
        (Edge::BeforeATable, quiet && any(|t| t.wrapping_sub(4))),
        (Edge::BehindATable, quiet && any(|t| t.wrapping_add(0x400))),
    ]
    .into_iter()
    .filter_map(|(edge, holds)| holds.then_some(edge))
    .collect()
}

/// Where the words stand that the walk of an address uses.
fn walked(plain: &Plain, address: u32) -> Vec<u32> {
    let (at, word) = level_one(plain)[(address >> 20) as usize];
    let second = table(word).map(|table| table + 4 * (address >> 12 & 0xFF));
    [at].into_iter().chain(second).collect()
}

/// What the walks of all pages come to.
fn outcomes(plain: &Plain) -> Vec<Result<Entry, Fault>> {
    (0..1024).map(|page| plain.outcome(page << 12)).collect()
}

/// What was seen of stores that were carried out, and of accesses.
#[derive(Default)]
struct Seen {
    /// Stores, by what they touch and their size.
    stores: Tally<(Touched, u32)>,
    edges: Tally<Edge>,
    /// Stores to used bytes of what is there already.
    same: Tally<Touched>,
    /// Stores to used bytes by an address that is not the physical one.
    elsewhere: Tally<Touched>,
    /// Accesses whose walk uses a word that a quiet store wrote last.
    later: Tally<(Bytes, Ended)>,
}

impl Seen {
    fn must_have(&self) {
        let sizes = |touched| [1, 2, 4].map(|size| (touched, size));
        let stores = USED.into_iter().chain(QUIET).flat_map(sizes);
        self.stores.must_have("stores, by size", stores);
        self.edges.must_have("stores at the edges", EDGES);
        self.same.must_have("stores of what is there", USED);
        self.elsewhere.must_have("stores by other addresses", USED);
        let later = [Bytes::AnotherRoot, Bytes::AnotherTable]
            .map(|bytes| [Ended::Ok, Ended::Faulted, Ended::Stale].map(|ended| (bytes, ended)));
        let name = "accesses by words of quiet stores";
        self.later.must_have(name, later.concat());
    }
}

/// A run of the plain machine, by what the checker said to each operation.
struct Run {
    plain: Plain,
    /// Where the words stand that a quiet store was the last to write.
    quietly: BTreeMap<u32, Bytes>,
}

impl Run {
    /// A store that was carried out. A quiet one changes no walk.
    fn store(&mut self, o: &Operation, seen: &mut Seen) {
        let entry = self.plain.outcome(o.a).expect("a store is translated");
        let at = entry.frame << 12 | o.a & 0xFFF;
        let (touched, word) = (touched(&self.plain, at), at & !3);
        let edges = edges(&self.plain, word, touched);
        edges.into_iter().for_each(|edge| seen.edges.add(edge));
        seen.stores.add((touched, o.b));
        let before = self.plain.clone();
        self.plain.step(o);
        if let Touched::Quiet(bytes) = touched {
            self.quietly.insert(word, bytes);
            let same = outcomes(&before) == outcomes(&self.plain);
            assert!(same, "{o:x?} at {at:#x} changes a walk");
            return;
        }
        self.quietly.remove(&word);
        if before.memory == self.plain.memory {
            seen.same.add(touched);
        }
        if o.a != at {
            seen.elsewhere.add(touched);
        }
    }

    fn step(&mut self, o: &Operation, ended: Ended, seen: &mut Seen) {
        if o.is_access() && o.is_aligned() && ended != Ended::Refused {
            for at in walked(&self.plain, o.a) {
                if let Some(bytes) = self.quietly.get(&at) {
                    seen.later.add((*bytes, ended));
                }
            }
        }
        match ended {
            Ended::Ok if o.kind == Kind::Write => self.store(o, seen),
            Ended::Ok | Ended::Faulted => drop(self.plain.step(o)),
            Ended::Stale | Ended::Refused => (),
        }
    }
}

#[test]
fn stores_that_are_nearly_quiet() {
    let mut seen = Seen::default();
    for (case, mut random) in cases(400) {
        let image = generate::image(&mut random);
        let list = stores(&mut random, 8, image.len() as u32, 40);
        let report = same_report("quiet", case, Some(&image), &generate::text(&list));
        assert_eq!(report.lines().count(), 1 + list.len(), "case {case}");
        let mut run = Run {
            plain: Plain::new(&image, 0),
            quietly: BTreeMap::new(),
        };
        for (o, said) in list.iter().zip(report.lines().skip(1)) {
            run.step(o, ended(said), &mut seen);
        }
    }
    seen.must_have();
}

/// An image in which page 0 maps itself and page 1 the frame at 0x3000, by the table at 0x400, both
/// with nG set. The words at 0x3000 and 0x4000 tell which frame is read. Other words are put in.
fn with(words: &[(usize, u32)]) -> Vec<u8> {
    let tables = [(0x0, 0x401), (0x400, 0x832), (0x404, 0x3832)];
    let frames = [(0x3000, 0x1234_5678), (0x4000, 0x1122_3344)];
    image(&[&tables[..], &frames, words].concat())
}

/// What a read of these frames gives.
const AT_3000: &str = "ok,12345678";
const AT_4000: &str = "ok,11223344";

const DONE: &str = "ok,0";
const STALE: &str = "refused,10";

/// Holds what the program answers to the lines of a list on an image to what is told with them.
fn answers<T: AsRef<str>>(image: &[u8], told: &[(T, &str)]) {
    let told = told.iter().map(|(line, answer)| (line.as_ref(), *answer));
    let list: String = told.clone().map(|(line, _)| format!("{line}\n")).collect();
    let expected = (2..).zip(told).map(|(number, (line, answer))| {
        let (name, _) = line.split_once(',').expect("a line has fields");
        format!("{number:x},{name},{answer}")
    });
    let expected: Vec<String> = expected.collect();
    assert_eq!(lines(image, &list), expected, "{list}");
}

/// A section is stored into the word that another root has for the second MiB: of what stands there
/// before that root is set, and while it is not, nothing is noted. While it is, all of it is.
#[test]
fn a_word_of_another_root() {
    let told = [
        ("write,84,4,20c12", DONE),
        ("read,104000,4,0", "fault,5"),
        ("write,84,4,20c02", DONE),
        ("root,80,0,0", DONE),
        ("fetch,104000,0,0", AT_4000),
        ("read,1000,4,0", AT_3000),
        ("write,84,4,20c12", DONE),
        ("read,104000,4,0", STALE),
        ("write,84,4,20c02", DONE),
        ("read,104000,4,0", STALE),
        ("root,0,0,0", DONE),
        ("read,104000,4,0", STALE),
        ("ctx,0,0,0", DONE),
        ("read,104000,4,0", "fault,5"),
        ("write,84,1,12", DONE),
        ("root,80,0,0", DONE),
        ("read,104000,4,0", AT_4000),
        ("fetch,104000,0,0", "fault,d"),
    ];
    answers(&with(&[(0x80, 0x401)]), &told);
}

/// A table that no level-one word points to: of what is stored into it nothing is noted, until a
/// level-one word points to it. From then on each of its words is, until the MiB is unmapped.
#[test]
fn a_table_that_comes_into_use() {
    let told = [
        ("write,804,4,3832", DONE),
        ("write,804,4,4832", DONE),
        ("read,101000,4,0", "fault,5"),
        ("write,4,4,801", DONE),
        ("read,101000,4,0", AT_4000),
        ("write,804,4,3832", DONE),
        ("write,804,4,4832", DONE),
        ("read,101000,4,0", STALE),
        ("addr,101000,0,0", DONE),
        ("read,101000,4,0", AT_4000),
        ("write,4,4,0", DONE),
        ("read,101000,4,0", STALE),
        // Changed and changed back while no walk sees it, so it is as it was noted.
        ("write,804,4,3832", DONE),
        ("write,804,4,4832", DONE),
        ("write,4,4,801", DONE),
        ("read,101000,4,0", AT_4000),
        ("write,4,4,0", DONE),
        ("write,804,4,3832", DONE),
        ("write,4,4,801", DONE),
        ("read,101000,4,0", STALE),
        ("ctx,0,0,0", DONE),
        ("read,101000,4,0", AT_3000),
    ];
    answers(&with(&[]), &told);
}

/// The level-one words above the window map nothing, whatever is stored there; the last one of the
/// window maps its MiB.
#[test]
fn words_above_the_window() {
    let mut told = Vec::new();
    for at in (0x10..0x80).step_by(4) {
        for word in ["20c02", "20c12", "801", "0"] {
            told.push((format!("write,{at:x},4,{word}"), DONE));
            told.push(("read,304000,4,0".to_string(), "fault,5"));
            told.push(("read,1000,4,0".to_string(), AT_3000));
        }
    }
    answers(&with(&[]), &told);
    let told = [
        ("write,c,4,20c02", DONE),
        ("write,10,4,20c12", DONE),
        ("read,304000,4,0", AT_4000),
        ("write,c,4,20c12", DONE),
        ("write,c,4,20c02", DONE),
        ("write,10,4,20c02", DONE),
        ("read,304000,4,0", STALE),
        ("addr,304000,0,0", DONE),
        ("write,10,4,0", DONE),
        ("read,304000,4,0", AT_4000),
    ];
    answers(&with(&[]), &told);
}

/// The level-one word of an unmapped MiB is in use all the same, in each of the three ways of being
/// unmapped: a section that is stored there is noted, and so is what follows.
#[test]
fn words_of_unmapped_mib() {
    for (at, page) in [(0x4, 0x10_4000), (0x8, 0x20_4000), (0xC, 0x30_4000)] {
        for unmapped in [0x0, 0x3, 0x6_0C02] {
            let read = format!("read,{page:x},4,0");
            let write = |word: u32| format!("write,{at:x},4,{word:x}");
            let told = [
                (write(unmapped), DONE),
                (read.clone(), "fault,5"),
                (write(0x2_0C02), DONE),
                (write(unmapped), DONE),
                (read.clone(), STALE),
                (write(0x2_0C02), DONE),
                (read.clone(), AT_4000),
                (write(unmapped), DONE),
                (write(0x2_0C12), DONE),
                (write(0x2_0C02), DONE),
                (read.clone(), STALE),
                (format!("addr,{page:x},0,0"), DONE),
                (read.clone(), AT_4000),
            ];
            answers(&with(&[]), &told);
        }
    }
}

/// The first MiB and the second have a table each, the third has none. Of the words of a table that
/// map nothing, the first, the last and the one behind those in use: mapped, mapped anew, and back.
#[test]
fn words_of_tables_in_use() {
    for (at, page) in [
        (0x408, 0x2000),
        (0x7FC, 0xF_F000),
        (0x800, 0x10_0000),
        (0xBFC, 0x1F_F000),
    ] {
        let read = format!("read,{page:x},4,0");
        let write = |word: u32| format!("write,{at:x},4,{word:x}");
        let told = [
            (read.clone(), "fault,7"),
            (write(0x3832), DONE),
            (read.clone(), AT_3000),
            (write(0x4832), DONE),
            (read.clone(), STALE),
            (format!("addr,{page:x},0,0"), DONE),
            (read.clone(), AT_4000),
            (write(0), DONE),
            (read.clone(), STALE),
            // What was only unmapped is trusted again.
            (write(0x4832), DONE),
            (read.clone(), AT_4000),
            (write(0x3832), DONE),
            (write(0x4832), DONE),
            (read.clone(), STALE),
        ];
        answers(&with(&[(0x4, 0x801)]), &told);
    }
}

/// The words right before and right behind the tables of the first two MiB map no page, neither the
/// one before nor the one behind those of the table.
#[test]
fn words_beside_tables_in_use() {
    let mut told = Vec::new();
    for store in ["write,3fc,4,3832", "write,c00,4,3832", "write,c00,4,4832"] {
        told.push((store, DONE));
        told.extend([
            ("read,ff000,4,0", "fault,7"),
            ("read,100000,4,0", "fault,7"),
            ("read,1ff000,4,0", "fault,7"),
            ("read,200000,4,0", "fault,5"),
            ("read,1000,4,0", AT_3000),
        ]);
    }
    answers(&with(&[(0x4, 0x801)]), &told);
}

/// A part of a word in use is changed, each byte of it and each half, and put back: stale after the
/// change and after what follows, as both are noted, until a flush. Of page 1, and of a section.
#[test]
fn parts_of_words_in_use() {
    let page = [(0x404, 1, 0x33, 0x32), (0x405, 1, 0x30, 0x38)];
    let frame = [(0x406, 1, 0x1, 0x0), (0x407, 1, 0x1, 0x0)];
    let halves = [(0x404, 2, 0x4832, 0x3832), (0x406, 2, 0x1, 0x0)];
    let section = [(0x4, 1, 0x12, 0x2), (0x5, 1, 0x8, 0xC)];
    let rest = [(0x6, 1, 0x0, 0x2), (0x7, 1, 0x10, 0x0)];
    let its_halves = [(0x4, 2, 0xC22, 0xC02), (0x6, 2, 0x12, 0x2)];
    let parts = [page, frame, halves, section, rest, its_halves].concat();
    for (at, size, new, old) in parts {
        let (page, value) = match at {
            0x404..=0x407 => (0x1000, AT_3000),
            _ => (0x10_4000, AT_4000),
        };
        let read = format!("read,{page:x},4,0");
        let told = [
            (read.clone(), value),
            (format!("write,{at:x},{size},{new:x}"), DONE),
            (read.clone(), STALE),
            (format!("write,{at:x},{size},{old:x}"), DONE),
            (read.clone(), STALE),
            (format!("addr,{page:x},0,0"), DONE),
            (read.clone(), value),
        ];
        answers(&with(&[(0x4, 0x2_0C02)]), &told);
    }
}

/// Stores of what is there already, to each kind of word in use, change nothing: in context 0, and
/// in one that is entered.
#[test]
fn stores_of_what_is_there() {
    let same = [
        ("write,404,4,3832", DONE),
        ("write,404,2,3832", DONE),
        ("write,405,1,38", DONE),
        ("write,400,4,832", DONE),
        ("write,408,4,0", DONE),
        ("write,0,4,401", DONE),
        ("write,1,1,4", DONE),
        ("write,4,4,0", DONE),
        ("read,1000,4,0", AT_3000),
        ("fetch,1000,0,0", AT_3000),
        ("read,2000,4,0", "fault,7"),
        ("read,100000,4,0", "fault,5"),
    ];
    let entered = [("asid,1,0,0", DONE)];
    answers(&with(&[]), &[&same[..], &entered, &same].concat());
}

/// A page that a flush names is noted again at once: it is free for an access, and the next change
/// makes it stale again, though nothing was read meanwhile. With nG set, and with nG clear, where a
/// flush of the page names it by whichever context.
#[test]
fn a_flushed_page_changed_again() {
    for (old, new, flush) in [
        (0x3832, 0x4832, "addr,1000,0,0"),
        (0x3832, 0x4832, "addr,1ffc,0,0"),
        (0x3832, 0x4832, "addrctx,1000,0,0"),
        (0x3832, 0x4832, "ctx,0,0,0"),
        (0x3832, 0x4832, "all,0,0,0"),
        (0x3032, 0x4032, "addr,1000,0,0"),
        (0x3032, 0x4032, "addrctx,1000,0,0"),
        (0x3032, 0x4032, "addrctx,1fff,5,0"),
        (0x3032, 0x4032, "all,0,0,0"),
    ] {
        let read = "read,1000,4,0".to_string();
        let write = |word: u32| format!("write,404,4,{word:x}");
        let flush = flush.to_string();
        let told = [
            (flush.clone(), DONE),
            (write(new), DONE),
            (read.clone(), STALE),
            (flush.clone(), DONE),
            (read.clone(), AT_4000),
            (flush, DONE),
            (write(0), DONE),
            (read.clone(), STALE),
            (write(old), DONE),
            (read.clone(), STALE),
            (write(new), DONE),
            (read, STALE),
        ];
        answers(&with(&[(0x404, old)]), &told);
    }
}

/// A flush of one page leaves the others as they are noted: page 2, which is changed with page 1,
/// stays stale.
#[test]
fn a_flush_of_another_page() {
    let told = [
        ("write,404,4,4832", DONE),
        ("write,408,4,3832", DONE),
        ("addr,1000,0,0", DONE),
        ("read,1000,4,0", AT_4000),
        ("read,2000,4,0", STALE),
        ("addrctx,2000,0,0", DONE),
        ("read,2000,4,0", AT_3000),
        ("write,408,4,4832", DONE),
        ("read,1000,4,0", AT_4000),
        ("read,2000,4,0", STALE),
    ];
    answers(&with(&[(0x408, 0x4832)]), &told);
}

/// A flush of another context leaves the current one's pages as they are noted; one of the current
/// context frees them, and the next change of each makes it stale again.
#[test]
fn a_flush_of_another_context_and_of_the_current_one() {
    let told = [
        ("write,404,4,4832", DONE),
        ("ctx,1,0,0", DONE),
        ("read,1000,4,0", STALE),
        ("ctx,0,0,0", DONE),
        ("read,1000,4,0", AT_4000),
        ("write,404,4,3832", DONE),
        ("read,1000,4,0", STALE),
        ("write,408,4,3832", DONE),
        ("read,2000,4,0", STALE),
        ("asid,1,0,0", DONE),
        ("ctx,0,0,0", DONE),
        ("read,1000,4,0", AT_3000),
        ("write,404,4,4832", DONE),
        ("ctx,0,0,0", DONE),
        ("read,1000,4,0", STALE),
        // Flushed from outside, and entered with the present tables.
        ("asid,0,0,0", DONE),
        ("read,1000,4,0", AT_4000),
        ("read,2000,4,0", AT_3000),
        ("asid,1,0,0", DONE),
        ("read,1000,4,0", STALE),
    ];
    answers(&with(&[(0x408, 0x4832)]), &told);
}

/// A context that is entered has the present tables noted, though nothing is read: a change there
/// makes the page stale there, and not in one that is entered later. Quiet stores come between.
#[test]
fn a_context_entered_and_a_page_changed() {
    let told = [
        ("asid,3,0,0", DONE),
        ("write,800,4,3832", DONE),
        ("write,404,4,4832", DONE),
        ("read,1000,4,0", STALE),
        ("asid,4,0,0", DONE),
        ("read,1000,4,0", AT_4000),
        ("write,1004,4,404", DONE),
        ("write,404,4,3832", DONE),
        ("read,1000,4,0", STALE),
        ("asid,3,0,0", DONE),
        ("read,1000,4,0", STALE),
        ("asid,5,0,0", DONE),
        ("read,1000,4,0", AT_3000),
        // It was left before the first change, and is entered after the page was put back.
        ("asid,0,0,0", DONE),
        ("read,1000,4,0", AT_3000),
    ];
    answers(&with(&[]), &told);
}

/// Whether a word is in use goes by where it stands in memory. The second MiB is a section at 0, so
/// that the words of tables are stored by it too; and page 1 has the addresses of the table at
/// 0x1000, which the third MiB uses, and other bytes.
#[test]
fn stores_by_other_addresses() {
    let words = [(0x4, 0x2_0C02), (0x8, 0x1001), (0x1000, 0x4832)];
    let told = [
        ("write,1000,4,5566", DONE),
        ("read,200000,4,0", AT_4000),
        ("read,103000,4,0", "ok,5566"),
        ("write,101000,4,3832", DONE),
        ("write,101000,4,4832", DONE),
        ("read,200000,4,0", STALE),
        ("write,100404,4,4832", DONE),
        ("write,100404,4,3832", DONE),
        ("read,1000,4,0", STALE),
        ("write,10000c,4,20c12", DONE),
        ("write,10000c,4,20c02", DONE),
        ("read,304000,4,0", STALE),
        ("all,0,0,0", DONE),
        ("read,200000,4,0", AT_4000),
        ("read,1000,4,0", "ok,5566"),
        ("fetch,304000,0,0", AT_4000),
    ];
    answers(&with(&words), &told);
}
