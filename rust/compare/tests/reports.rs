//! The program against the model's report, on generated images and lists, whole and damaged.
use compare::{cases, image, lines, same_report, Tally};
use model::generate;
use model::list::report;
use model::random::Random;
use model::walk::fault;

/// A generated list, and its report on a generated image, which has to be the model's.
fn compared(case: u64, random: &mut Random) -> (Vec<u8>, String) {
    let image = generate::image_file(random);
    let memory = image.as_ref().map_or(0, Vec::len) as u32;
    let list = generate::list(random, memory);
    let report = same_report("report", case, image.as_deref(), &list);
    (list, report)
}

/// What a line of a report says: `ok`, or `fault` or `refused` with its number.
type Answer = (String, String);

fn answer(word: &str, number: &str) -> Answer {
    let number = if word == "ok" { "" } else { number };
    (word.to_string(), number.to_string())
}

fn faulted(n: u32) -> Answer {
    answer("fault", &format!("{n:x}"))
}

fn refused(n: u32) -> Answer {
    answer("refused", &format!("{n:x}"))
}

/// The fields that each operation does not use.
const UNUSED: [(&str, &str); 11] = [
    ("read", "c"),
    ("write", ""),
    ("root", "bc"),
    ("asid", "bc"),
    ("mode", "bc"),
    ("all", "abc"),
    ("addr", "bc"),
    ("ctx", "bc"),
    ("addrctx", "c"),
    ("fetch", "bc"),
    ("domain", "bc"),
];

/// The operation of a line, and the first of its unused fields that is not 0.
fn first_unused(line: &str) -> Option<(&'static str, char)> {
    let (name, fields) = line.split_once(',')?;
    let (name, unused) = UNUSED.into_iter().find(|(other, _)| *other == name)?;
    let mut fields = "abc".chars().zip(fields.split(','));
    let (letter, _) = fields.find(|(letter, field)| unused.contains(*letter) && *field != "0")?;
    Some((name, letter))
}

/// What the lines of reports said.
#[derive(Default)]
struct Seen {
    all: Tally<Answer>,
    /// Of lines that were turned back by 6.
    unused: Tally<(&'static str, char)>,
    fetches: Tally<Answer>,
    domains: Tally<Answer>,
    /// Of `root`, and whether the context was 0.
    roots: Tally<(bool, Answer)>,
}

impl Seen {
    /// Adds the report of a list. Under another context than 0 a root is refused, and nothing else
    /// is refused by 20. What 6 turns back has an unused field that is not 0.
    fn add(&mut self, list: &[u8], report: &str) {
        let list = String::from_utf8_lossy(list);
        let mut lines = list.lines().skip(1);
        let mut in_0 = true;
        for said in report.lines().skip(1) {
            let line = lines.next().unwrap_or_default();
            let fields: Vec<&str> = said.split(',').collect();
            let answer = answer(fields[2], fields[3]);
            let elsewhere = fields[1] == "root" && !in_0;
            assert!(!elsewhere || fields[2] == "refused", "{line}: {said}");
            assert!(elsewhere || answer != refused(20), "{line}: {said}");
            match (fields[1], fields[2]) {
                ("fetch", _) => self.fetches.add(answer.clone()),
                ("domain", _) => self.domains.add(answer.clone()),
                ("root", _) => self.roots.add((in_0, answer.clone())),
                ("asid", "ok") => in_0 = line == "asid,0,0,0",
                ("-", _) if answer == refused(6) => {
                    let field = first_unused(line);
                    let field = field.unwrap_or_else(|| panic!("{line}: {said}"));
                    self.unused.add(field);
                }
                _ => (),
            }
            self.all.add(answer);
        }
    }

    fn must_have(&self) {
        let faults = || {
            let faults = fault::OF_WALKS.into_iter().chain(fault::OF_ACCESSES);
            faults.map(faulted)
        };
        let refusals = (1..=17).filter(|n| *n != 14).chain([20]).map(refused);
        self.all.must_have("reports", faults().chain(refusals));
        let unused = UNUSED.into_iter().flat_map(|(name, fields)| {
            let pair = move |field| (name, field);
            fields.chars().map(pair)
        });
        let what = "the first unused field that is not 0";
        self.unused.must_have(what, unused);
        let ok = answer("ok", "");
        let others = [ok.clone(), refused(8), refused(16)];
        self.fetches.must_have("fetches", faults().chain(others));
        let set = [ok.clone(), refused(15), refused(17)];
        self.domains.must_have("domain", set);
        let in_0 = [ok, refused(10), refused(15)].map(|answer| (true, answer));
        let elsewhere = [10, 15, 20].map(|n| (false, refused(n)));
        let roots = in_0.into_iter().chain(elsewhere);
        self.roots.must_have("root, in context 0 or another", roots);
    }
}

#[test]
fn reports() {
    let mut seen = Seen::default();
    for (case, mut random) in cases(500) {
        let (list, report) = compared(case, &mut random);
        seen.add(&list, &report);
    }
    seen.must_have();
}

/// The image and the list of the rules.
#[test]
fn the_listing() {
    let image = include_bytes!("../../../examples/image.bin");
    let list = include_bytes!("../../../examples/list");
    let expected = include_str!("../../../crates/replay/stdout");
    assert_eq!(report(Some(image), list), expected);
    assert_eq!(programs::replay(list, Some(image)), expected.as_bytes());
}

/// Roots 0 and 0x80 map page 0 alike, and page 1 by these words: to 0x3000 or 0x4000.
fn two_maps(old: u32, new: u32) -> Vec<u8> {
    let first = [(0x0, 0x401), (0x400, 0x832), (0x404, old)];
    let second = [(0x80, 0x801), (0x800, 0x832), (0x804, new)];
    let words = [(0x3000, 0x1234_5678), (0x4000, 0x1122_3344)];
    image(&[&first[..], &second, &words].concat())
}

/// Page 1 is mapped differently, with nG set. `root` is refused under each context but 0, and
/// nothing changes by that, there or in context 0. Under context 0 it is set, page 0 is trusted,
/// and page 1 is stale from then on, also with the old root.
#[test]
fn asid_then_root() {
    let image = two_maps(0x3832, 0x4832);
    let list = |context: u32| {
        format!(
            "asid,{context:x},0,0\nroot,80,0,0\nread,1000,4,0\nread,0,4,0\nasid,0,0,0\n\
             read,1000,4,0\nroot,0,0,0\nread,1000,4,0\n"
        )
    };
    let (kept, stale) = ("read,ok,12345678", "read,refused,10");
    for context in 0..8 {
        let (root, page_1) = match context {
            0 => ("root,ok,0", stale),
            _ => ("root,refused,14", kept),
        };
        let expected = [
            "2,asid,ok,0".to_string(),
            format!("3,{root}"),
            format!("4,{page_1}"),
            "5,read,ok,401".to_string(),
            "6,asid,ok,0".to_string(),
            format!("7,{page_1}"),
            "8,root,ok,0".to_string(),
            format!("9,{page_1}"),
        ];
        assert_eq!(lines(&image, &list(context)), expected, "{context}");
    }
}

/// Context 1 sees the old map, context 0 changes the root, and context 1 sees the new one: page 1
/// is stale there where the two differ, nG among the rest, and so it is in context 0, which saw
/// both. A flush of context 1 helps only where no global entry is left over.
#[test]
fn asid_then_root_with_global_pages() {
    let (stale, old_word, new_word) = ("refused,10", "ok,12345678", "ok,11223344");
    for (old, new, answers) in [
        (0x3832, 0x4832, [stale, new_word, stale]),
        (0x3032, 0x4032, [stale, stale, stale]),
        (0x3032, 0x4832, [stale, stale, stale]),
        (0x3832, 0x4032, [stale, new_word, stale]),
        (0x3832, 0x3032, [stale, old_word, stale]),
        (0x3032, 0x3032, [old_word, old_word, old_word]),
        (0x3832, 0x3832, [old_word, old_word, old_word]),
    ] {
        let found = lines(
            &two_maps(old, new),
            "asid,1,0,0\nasid,0,0,0\nroot,80,0,0\nasid,1,0,0\nread,1000,4,0\nctx,1,0,0\n\
             read,1000,4,0\nasid,0,0,0\nread,1000,4,0\n",
        );
        let [switched, flushed, back] = answers;
        let expected = [
            "2,asid,ok,0".to_string(),
            "3,asid,ok,0".to_string(),
            "4,root,ok,0".to_string(),
            "5,asid,ok,0".to_string(),
            format!("6,read,{switched}"),
            "7,ctx,ok,0".to_string(),
            format!("8,read,{flushed}"),
            "9,asid,ok,0".to_string(),
            format!("a,read,{back}"),
        ];
        assert_eq!(found, expected, "{old:x} to {new:x}");
    }
}

/// Through context 0 to a context of its own for each map, and back: page 1, which has nG set, is
/// stale in context 0, which saw both maps, and in no other until it sees a second one.
#[test]
fn switches_through_context_0() {
    let found = lines(
        &two_maps(0x3832, 0x4832),
        "read,1000,4,0\nroot,80,0,0\nread,1000,4,0\nasid,1,0,0\nread,1000,4,0\nasid,0,0,0\n\
         root,0,0,0\nread,1000,4,0\nasid,2,0,0\nread,1000,4,0\nasid,0,0,0\nroot,80,0,0\n\
         asid,2,0,0\nread,1000,4,0\nctx,2,0,0\nread,1000,4,0\nasid,1,0,0\nread,1000,4,0\n\
         asid,0,0,0\nread,1000,4,0\nctx,0,0,0\nread,1000,4,0\n",
    );
    let expected = [
        "2,read,ok,12345678",
        "3,root,ok,0",
        "4,read,refused,10",
        "5,asid,ok,0",
        "6,read,ok,11223344",
        "7,asid,ok,0",
        "8,root,ok,0",
        "9,read,refused,10",
        "a,asid,ok,0",
        "b,read,ok,12345678",
        "c,asid,ok,0",
        "d,root,ok,0",
        "e,asid,ok,0",
        "f,read,refused,10",
        "10,ctx,ok,0",
        "11,read,ok,11223344",
        "12,asid,ok,0",
        "13,read,ok,11223344",
        "14,asid,ok,0",
        "15,read,refused,10",
        "16,ctx,ok,0",
        "17,read,ok,11223344",
    ];
    assert_eq!(found, expected);
}

/// Maps that agree: under another context than 0 a root is refused all the same, also the one that
/// is held and one outside memory. 10 comes before 15 and 15 before 20.
#[test]
fn roots_under_another_context() {
    let found = lines(
        &two_maps(0x3832, 0x3832),
        "asid,1,0,0\nroot,80,0,0\nroot,0,0,0\nroot,8000,0,0\nroot,40,0,0\nroot,ffffffff,0,0\n\
         mode,1,0,0\nroot,80,0,0\nroot,0,0,0\nroot,40,0,0\nmode,0,0,0\nasid,7,0,0\n\
         root,80,0,0\nasid,0,0,0\nroot,40,0,0\nroot,80,0,0\nread,1000,4,0\nroot,80,0,0\n\
         mode,1,0,0\nroot,0,0,0\n",
    );
    let expected = [
        "2,asid,ok,0",
        "3,root,refused,14",
        "4,root,refused,14",
        "5,root,refused,14",
        "6,root,refused,a",
        "7,root,refused,a",
        "8,mode,ok,0",
        "9,root,refused,f",
        "a,root,refused,f",
        "b,root,refused,a",
        "c,mode,ok,0",
        "d,asid,ok,0",
        "e,root,refused,14",
        "f,asid,ok,0",
        "10,root,refused,a",
        "11,root,ok,0",
        "12,read,ok,12345678",
        "13,root,ok,0",
        "14,mode,ok,0",
        "15,root,refused,f",
    ];
    assert_eq!(found, expected);
}

/// Under another context every operation but `root` answers as it does under context 0, `asid` to
/// any context among them.
#[test]
fn other_operations_under_another_context() {
    let operations = [
        ("read,1000,4,0", "ok,12345678"),
        ("write,1000,4,55", "ok,0"),
        ("fetch,1000,0,0", "ok,55"),
        ("mode,1,0,0", "ok,0"),
        ("mode,0,0,0", "ok,0"),
        ("domain,55555554,0,0", "ok,0"),
        ("read,1000,4,0", "fault,b"),
        ("domain,55555555,0,0", "ok,0"),
        ("all,0,0,0", "ok,0"),
        ("addr,1000,0,0", "ok,0"),
        ("ctx,0,0,0", "ok,0"),
        ("addrctx,1000,5,0", "ok,0"),
        ("read,1000,2,0", "ok,55"),
        ("asid,5,0,0", "ok,0"),
        ("asid,2,0,0", "ok,0"),
        ("asid,0,0,0", "ok,0"),
    ];
    for context in [0, 1, 5, 7] {
        let (mut list, mut expected) = (format!("asid,{context},0,0\n"), Vec::new());
        for (number, (line, answer)) in (3..).zip(operations) {
            let (name, _) = line.split_once(',').expect("a line has fields");
            list.push_str(&format!("{line}\n"));
            expected.push(format!("{number:x},{name},{answer}"));
        }
        let found = lines(&two_maps(0x3832, 0x4832), &list);
        assert_eq!(found[1..], expected, "context {context}");
    }
}

/// Page 1 turns from own to global or from global to own, and back: each set holds one entry, and
/// the one of the other kind is left over until a flush that names it.
#[test]
fn a_page_turned_and_turned_back() {
    for (old, new, flush, spares) in [
        (0x3832, 0x3032, "addrctx,1000,7,0", "ctx,0,0,0"),
        (0x3032, 0x3832, "ctx,0,0,0", "addrctx,1000,7,0"),
    ] {
        let image = image(&[(0x0, 0x401), (0x400, 0x832), (0x404, old)]);
        let found = lines(
            &image,
            &format!(
                "write,404,4,{new:x}\nread,1000,4,0\nwrite,404,4,{old:x}\nread,1000,4,0\n\
                 {spares}\nread,1000,4,0\n{flush}\nread,1000,4,0\n"
            ),
        );
        let name = |line: &'static str| line.split(',').next().unwrap_or_default();
        let expected = [
            "2,write,ok,0".to_string(),
            "3,read,refused,10".to_string(),
            "4,write,ok,0".to_string(),
            "5,read,refused,10".to_string(),
            format!("6,{},ok,0", name(spares)),
            "7,read,refused,10".to_string(),
            format!("8,{},ok,0", name(flush)),
            "9,read,ok,0".to_string(),
        ];
        assert_eq!(found, expected, "{old:x} to {new:x}");
    }
}

/// A global section at 0 split into 256 pages alike that are global too, in context 1: stale in every
/// context by the global set, page by page until `addr` or `addrctx`.
#[test]
fn a_global_section_split() {
    let pages: Vec<(usize, u32)> = (0..256)
        .map(|page| (0x1000 + 4 * page as usize, page << 12 | 0x032))
        .collect();
    let level_one = [(0x0, 0x401), (0x400, 0x832), (0x4, 0xC02)];
    let image = image(&[&level_one, &pages[..]].concat());
    let found = lines(
        &image,
        "asid,1,0,0\nwrite,4,4,1001\nasid,2,0,0\nread,100000,4,0\nread,101000,4,0\n\
         ctx,2,0,0\nread,100000,4,0\naddrctx,100000,0,0\nread,100000,4,0\nread,101000,4,0\n\
         addr,101000,0,0\nread,101000,4,0\n",
    );
    let expected = [
        "2,asid,ok,0",
        "3,write,ok,0",
        "4,asid,ok,0",
        "5,read,refused,10",
        "6,read,refused,10",
        "7,ctx,ok,0",
        "8,read,refused,10",
        "9,addrctx,ok,0",
        "a,read,ok,401",
        "b,read,refused,10",
        "c,addr,ok,0",
        "d,read,ok,32",
    ];
    assert_eq!(found, expected);
}

/// The second MiB is a section at 0, AP 3, or 256 pages alike, by one word at 4; both have nG set.
/// The old entries stand in the sets of contexts 0 and 1 when the word changes, in context 1.
#[test]
fn a_section_split_and_pages_joined() {
    let pages: Vec<(usize, u32)> = (0..256)
        .map(|page| (0x1000 + 4 * page as usize, page << 12 | 0x832))
        .collect();
    for (old, new) in [(0x2_0C02, 0x1001), (0x1001, 0x2_0C02)] {
        let level_one = [(0x0, 0x401), (0x400, 0x832), (0x4, old)];
        let image = image(&[&level_one, &pages[..]].concat());
        let found = lines(
            &image,
            &format!(
                "asid,1,0,0\nwrite,4,4,{new:x}\nread,100000,4,0\nread,1ff000,4,0\nctx,1,0,0\n\
                 read,100000,4,0\nread,1ff000,4,0\nasid,0,0,0\nread,100000,4,0\nasid,1,0,0\n\
                 write,4,4,{old:x}\nwrite,4,4,{new:x}\nread,100000,4,0\n"
            ),
        );
        let expected = [
            "2,asid,ok,0",
            "3,write,ok,0",
            "4,read,refused,10",
            "5,read,refused,10",
            "6,ctx,ok,0",
            "7,read,ok,401",
            "8,read,fault,8",
            "9,asid,ok,0",
            "a,read,refused,10",
            "b,asid,ok,0",
            "c,write,ok,0",
            "d,write,ok,0",
            "e,read,refused,10",
        ];
        assert_eq!(found, expected, "{old:x} to {new:x}");
    }
}

/// Changed and changed back in context 1, without a flush: trusted in context 0, whose sets hold the
/// first entries alone.
#[test]
fn a_section_split_and_joined_again() {
    let level_one = [(0x0, 0x401), (0x400, 0x832), (0x4, 0x2_0C02)];
    let image = image(&[&level_one[..], &[(0x1000, 0x832)]].concat());
    let found = lines(
        &image,
        "asid,1,0,0\nwrite,4,4,1001\nwrite,4,4,20c02\nread,100000,4,0\nasid,0,0,0\n\
         read,100000,4,0\n",
    );
    let expected = [
        "2,asid,ok,0",
        "3,write,ok,0",
        "4,write,ok,0",
        "5,read,refused,10",
        "6,asid,ok,0",
        "7,read,ok,401",
    ];
    assert_eq!(found, expected);
}

/// Of each kind of mapping: where a word stands with XN clear and where with XN set, the XN, what they
/// map to address 0x4000, and the permission fault.
struct Mapping {
    words: [(usize, u32); 2],
    xn: u32,
    addresses: [u32; 2],
    fault: &'static str,
}

const MAPPINGS: [Mapping; 3] = [
    Mapping {
        words: [(0x404, 0x4832), (0x408, 0x4833)],
        xn: 1,
        addresses: [0x1000, 0x2000],
        fault: "f",
    },
    Mapping {
        words: [(0x450, 0x831), (0x490, 0x8831)],
        xn: 1 << 15,
        addresses: [0x1_4000, 0x2_4000],
        fault: "f",
    },
    Mapping {
        words: [(0x4, 0x2_0C02), (0x8, 0x2_0C12)],
        xn: 1 << 4,
        addresses: [0x10_4000, 0x20_4000],
        fault: "d",
    },
];

impl Mapping {
    fn image(&self) -> Vec<u8> {
        let rest = [(0x0, 0x401), (0x400, 0x832), (0x4000, 0x1122_3344)];
        image(&[&rest, &self.words[..]].concat())
    }
}

/// With XN set a page is read and written and not fetched from, in both modes. A word fetched is the
/// word that a read gives and a store left.
#[test]
fn fetches_by_xn() {
    for mapping in MAPPINGS {
        let ([open, shut], fault) = (mapping.addresses, mapping.fault);
        let found = lines(
            &mapping.image(),
            &format!(
                "fetch,{open:x},0,0\nfetch,{shut:x},0,0\nread,{shut:x},4,0\n\
                 write,{shut:x},4,5566\nfetch,{open:x},0,0\nmode,1,0,0\nfetch,{open:x},0,0\n\
                 fetch,{shut:x},0,0\nread,{shut:x},4,0\nwrite,{shut:x},2,0\n"
            ),
        );
        let expected = [
            "2,fetch,ok,11223344".to_string(),
            format!("3,fetch,fault,{fault}"),
            "4,read,ok,11223344".to_string(),
            "5,write,ok,0".to_string(),
            "6,fetch,ok,5566".to_string(),
            "7,mode,ok,0".to_string(),
            "8,fetch,ok,5566".to_string(),
            format!("9,fetch,fault,{fault}"),
            "a,read,ok,5566".to_string(),
            "b,write,ok,0".to_string(),
        ];
        assert_eq!(found, expected, "{open:x} and {shut:x}");
    }
}

/// XN alone is set: the page is stale for reads and fetches alike in the context that noted the old
/// entry, until a flush, and in no other. An unaligned fetch is fault 1 all the same.
#[test]
fn xn_alone_changed() {
    for mapping in MAPPINGS {
        let ([(at, old), _], [open, _]) = (mapping.words, mapping.addresses);
        let (new, fault) = (old | mapping.xn, mapping.fault);
        let found = lines(
            &mapping.image(),
            &format!(
                "write,{at:x},4,{new:x}\nread,{open:x},4,0\nfetch,{open:x},0,0\n\
                 fetch,{:x},0,0\nasid,1,0,0\nread,{open:x},4,0\nfetch,{open:x},0,0\n\
                 asid,0,0,0\nread,{open:x},4,0\nctx,0,0,0\nread,{open:x},4,0\n\
                 fetch,{open:x},0,0\n",
                open + 2
            ),
        );
        let expected = [
            "2,write,ok,0".to_string(),
            "3,read,refused,10".to_string(),
            "4,fetch,refused,10".to_string(),
            "5,fetch,fault,1".to_string(),
            "6,asid,ok,0".to_string(),
            "7,read,ok,11223344".to_string(),
            format!("8,fetch,fault,{fault}"),
            "9,asid,ok,0".to_string(),
            "a,read,refused,10".to_string(),
            "b,ctx,ok,0".to_string(),
            "c,read,ok,11223344".to_string(),
            format!("d,fetch,fault,{fault}"),
        ];
        assert_eq!(found, expected, "{old:x} to {new:x}");
    }
}

/// XN alone is set and cleared again in context 1: both entries stand in its set, and context 0, which
/// noted the first alone, trusts it.
#[test]
fn xn_set_and_cleared() {
    for mapping in MAPPINGS {
        let ([(at, old), _], [open, _]) = (mapping.words, mapping.addresses);
        let found = lines(
            &mapping.image(),
            &format!(
                "asid,1,0,0\nwrite,{at:x},4,{:x}\nwrite,{at:x},4,{old:x}\nfetch,{open:x},0,0\n\
                 asid,0,0,0\nfetch,{open:x},0,0\n",
                old | mapping.xn
            ),
        );
        let expected = [
            "2,asid,ok,0",
            "3,write,ok,0",
            "4,write,ok,0",
            "5,fetch,refused,10",
            "6,asid,ok,0",
            "7,fetch,ok,11223344",
        ];
        assert_eq!(found, expected, "{old:x}");
    }
}

/// Page 1 in domain 3 and a section in domain 12, both at 0x4000, with AP 0 and the section with
/// XN: what their fields allow, one opened and one as it was, then both closed. A register with a
/// field of 2 is refused, by 17 in either mode, and any other in user mode by 15.
#[test]
fn domains_opened_and_closed() {
    let first = [(0x0, 0x461), (0x4, 0x2_0192), (0x400, 0x832)];
    let image = image(&[&first[..], &[(0x404, 0x4802), (0x4000, 0x1122_3344)]].concat());
    let found = lines(
        &image,
        "read,1000,4,0\nread,104000,4,0\ndomain,555555d5,0,0\nread,1000,4,0\n\
         write,1000,4,5566\nread,104000,4,0\ndomain,57555555,0,0\nfetch,104000,0,0\n\
         read,1000,4,0\ndomain,54555515,0,0\nread,1000,4,0\nfetch,104000,0,0\nmode,1,0,0\n\
         domain,55555555,0,0\ndomain,55555556,0,0\nwrite,1000,4,0\nmode,0,0,0\n\
         domain,95555555,0,0\nread,0,4,0\ndomain,55555555,0,0\nread,0,4,0\n",
    );
    let expected = [
        "2,read,fault,f",
        "3,read,fault,d",
        "4,domain,ok,0",
        "5,read,ok,11223344",
        "6,write,ok,0",
        "7,read,fault,d",
        "8,domain,ok,0",
        "9,fetch,ok,5566",
        "a,read,fault,f",
        "b,domain,ok,0",
        "c,read,fault,b",
        "d,fetch,fault,9",
        "e,mode,ok,0",
        "f,domain,refused,f",
        "10,domain,refused,11",
        "11,write,fault,b",
        "12,mode,ok,0",
        "13,domain,refused,11",
        "14,read,fault,b",
        "15,domain,ok,0",
        "16,read,ok,461",
    ];
    assert_eq!(found, expected);
}

/// The domain alone is changed, in context 0, by the word of a section or by that which points to
/// the table of a page: stale for reads and fetches alike in the context that noted the old entry,
/// until a flush, and in no other; closing and opening domains changes nothing about that. What
/// follows the flush goes by the field of the new domain.
#[test]
fn the_domain_alone_changed() {
    for (mapping, at, new, fault) in [
        (&MAPPINGS[0], 0x0, 0x421, "b"),
        (&MAPPINGS[1], 0x0, 0x421, "b"),
        (&MAPPINGS[2], 0x4, 0x2_0C22, "9"),
    ] {
        let [open, _] = mapping.addresses;
        let found = lines(
            &mapping.image(),
            &format!(
                "write,{at:x},4,{new:x}\nread,{open:x},4,0\ndomain,0,0,0\nfetch,{open:x},0,0\n\
                 domain,ffffffff,0,0\nfetch,{open:x},0,0\nread,{:x},2,0\nasid,1,0,0\n\
                 read,{open:x},4,0\nasid,0,0,0\nread,{open:x},4,0\nctx,0,0,0\n\
                 domain,55555554,0,0\nread,{open:x},4,0\ndomain,55555551,0,0\n\
                 read,{open:x},4,0\n",
                open + 1
            ),
        );
        let expected = [
            "2,write,ok,0".to_string(),
            "3,read,refused,10".to_string(),
            "4,domain,ok,0".to_string(),
            "5,fetch,refused,10".to_string(),
            "6,domain,ok,0".to_string(),
            "7,fetch,refused,10".to_string(),
            "8,read,fault,1".to_string(),
            "9,asid,ok,0".to_string(),
            "a,read,ok,11223344".to_string(),
            "b,asid,ok,0".to_string(),
            "c,read,refused,10".to_string(),
            "d,ctx,ok,0".to_string(),
            "e,domain,ok,0".to_string(),
            "f,read,ok,11223344".to_string(),
            "10,domain,ok,0".to_string(),
            format!("11,read,fault,{fault}"),
        ];
        assert_eq!(found, expected, "{open:x}");
    }
}

/// A pointer's domain is changed by a store of one byte: of its low byte, or of the next one, which
/// has the highest bit. All pages of its table are stale, those of other tables are not.
#[test]
fn a_pointers_domain_changed_by_a_byte() {
    let pages = [(0x400, 0x832), (0x7FC, 0x3832), (0x800, 0x832)];
    let image = image(&[&[(0x0, 0x401), (0x4, 0x801)], &pages[..]].concat());
    for store in ["write,0,1,21", "write,1,1,5"] {
        let found = lines(
            &image,
            &format!(
                "{store}\nread,0,1,0\nread,ff000,4,0\nread,fe000,4,0\nread,100004,4,0\n\
                 all,0,0,0\nread,ff000,4,0\n"
            ),
        );
        let expected = [
            "2,write,ok,0",
            "3,read,refused,10",
            "4,read,refused,10",
            "5,read,fault,7",
            "6,read,ok,801",
            "7,all,ok,0",
            "8,read,ok,0",
        ];
        assert_eq!(found, expected, "{store}");
    }
}

/// A page of each AP that allows the kernel or the user to read, or nobody: fetches follow.
#[test]
fn fetches_by_ap() {
    let tables = [(0x0, 0x401), (0x400, 0x812), (0x404, 0x4822)];
    let pages = [(0x408, 0x4A32), (0x40C, 0x4802), (0x410, 0x4A12)];
    let image = image(&[tables, pages].concat());
    let fetches = "fetch,0,0,0\nfetch,1000,0,0\nfetch,2000,0,0\nfetch,3000,0,0\nfetch,4000,0,0\n";
    let found = lines(
        &image,
        &format!("{fetches}mode,1,0,0\n{fetches}ctx,0,0,0\n"),
    );
    let expected = [
        "2,fetch,ok,401",
        "3,fetch,ok,0",
        "4,fetch,ok,0",
        "5,fetch,fault,f",
        "6,fetch,ok,0",
        "7,mode,ok,0",
        "8,fetch,fault,f",
        "9,fetch,ok,0",
        "a,fetch,ok,0",
        "b,fetch,fault,f",
        "c,fetch,fault,f",
        "d,ctx,refused,f",
    ];
    assert_eq!(found, expected);
}

#[test]
fn an_unaligned_read_of_a_stale_page() {
    let image = image(&[(0x0, 0x401), (0x400, 0x032), (0x404, 0x3032)]);
    let found = lines(&image, "write,404,4,0\nread,1000,4,0\nread,1001,4,0\n");
    let expected = ["2,write,ok,0", "3,read,refused,10", "4,read,fault,1"];
    assert_eq!(found, expected);
}
