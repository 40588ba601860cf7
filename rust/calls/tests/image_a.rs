//! The C functions on image A, as the rules give it.
use model::generate::image_a;

const FAULT: u64 = 0x1_0000_0000;
const REFUSAL: u64 = 0x2_0000_0000;
const NO_CALL: u64 = 0x3_0000_0000;

const READ: u32 = 0;
const WRITE: u32 = 1;
const ROOT: u32 = 2;
const ASID: u32 = 3;
const MODE: u32 = 4;
const ALL: u32 = 5;
const ADDR: u32 = 6;
const CTX: u32 = 7;
const ADDRCTX: u32 = 8;
const FETCH: u32 = 9;
const DOMAIN: u32 = 10;

/// The domain register after a start.
const CLIENTS: u32 = 0x5555_5555;

/// An empty track for this many contexts: a row for each, and the global one.
fn track(contexts: usize) -> Vec<u32> {
    vec![0; (contexts + 1) * 1024]
}

fn put(memory: &mut [u8], words: &[(usize, u32)]) {
    for (at, word) in words {
        memory[*at..*at + 4].copy_from_slice(&word.to_le_bytes());
    }
}

#[test]
fn single_walks() {
    let image = image_a();
    assert_eq!(calls::walk(&image, 0, 0), 0x202);
    assert_eq!(calls::walk(&image, 0, 0x1000), 0x3602);
    assert_eq!(calls::walk(&image, 0, 0x2000), FAULT + 7);
    assert_eq!(calls::walk(&image, 0, 0x10_0000), FAULT + 5);
    assert_eq!(calls::walk(&image, 0, 0x40_0000), REFUSAL + 8);
    assert_eq!(calls::walk(&image, 1, 0), REFUSAL + 0xa);
    assert_eq!(calls::walk(&image[..5000], 0, 0), REFUSAL + 0xd);
    assert_eq!(calls::walk(&[], 0, 0), REFUSAL + 0xd);
}

/// A section's word has bit 8 set; the words of a walk outside memory, at either level.
#[test]
fn sections_and_walks_outside_memory() {
    let mut image = image_a();
    put(&mut image, &[(0x4, 0x3002_0C02), (0x8, 0x8001)]);
    assert_eq!(calls::walk(&image, 0, 0x1A_B000), 0x300A_B702);
    assert_eq!(calls::walk(&image, 0x8000, 0), FAULT + 0xc);
    assert_eq!(calls::walk(&image, 0, 0x20_0000), FAULT + 0xe);
}

/// With nG clear, the word of a small page, a large page or a section has bit 7 set.
#[test]
fn walks_of_global_pages() {
    let mut image = image_a();
    put(&mut image, &[(0x4, 0x3000_0C02), (0x404, 0x3032)]);
    put(&mut image, &[(0x440, 0x2_0031), (0x444, 0x2_0831)]);
    assert_eq!(calls::walk(&image, 0, 0x0), 0x202);
    assert_eq!(calls::walk(&image, 0, 0x1000), 0x3682);
    assert_eq!(calls::walk(&image, 0, 0x1_0000), 0x2_0682);
    assert_eq!(calls::walk(&image, 0, 0x1_1000), 0x2_1602);
    assert_eq!(calls::walk(&image, 0, 0x1A_B000), 0x300A_B782);
}

/// With XN set, the word of a small page, a large page or a section has bit 6 set, own or global.
#[test]
fn walks_with_xn() {
    let mut image = image_a();
    put(&mut image, &[(0x4, 0x3002_0C12), (0x8, 0x3000_0C12)]);
    put(&mut image, &[(0x404, 0x3833), (0x408, 0x3033)]);
    put(&mut image, &[(0x440, 0x2_8831), (0x444, 0x2_8031)]);
    assert_eq!(calls::walk(&image, 0, 0x0), 0x202);
    assert_eq!(calls::walk(&image, 0, 0x1000), 0x3642);
    assert_eq!(calls::walk(&image, 0, 0x2000), 0x36C2);
    assert_eq!(calls::walk(&image, 0, 0x1_0000), 0x2_0642);
    assert_eq!(calls::walk(&image, 0, 0x1_1000), 0x2_16C2);
    assert_eq!(calls::walk(&image, 0, 0x1A_B000), 0x300A_B742);
    assert_eq!(calls::walk(&image, 0, 0x2A_B000), 0x300A_B7C2);
}

/// The domain of a section, and of the word that points to a page's table, stands in bits 5..2.
#[test]
fn walks_in_domains() {
    for domain in 0..16 {
        let mut image = image_a();
        put(&mut image, &[(0x0, 0x401 | domain << 5)]);
        put(&mut image, &[(0x4, 0x3002_0C02 | domain << 5)]);
        put(&mut image, &[(0x408, 0x3033), (0x440, 0x2_0831)]);
        for (address, word) in [
            (0x0, 0x202),
            (0x1000, 0x3602),
            (0x2000, 0x36C2),
            (0x1_0000, 0x2_0602),
            (0x1A_B000, 0x300A_B702),
        ] {
            let expected = u64::from(word | domain << 2);
            let found = calls::walk(&image, 0, address);
            assert_eq!(found, expected, "{address:#x}, domain {domain}");
        }
        assert_eq!(calls::walk(&image, 0, 0x3000), FAULT + 7);
    }
}

#[test]
fn the_list() {
    let mut memory = image_a();
    let mut track = vec![7; 9 * 1024];
    let mut registers = [9; 4];
    assert_eq!(calls::start(&memory, &mut track, 0, &mut registers), 0);
    assert_eq!(registers, [0, 0, 0, CLIENTS]);
    assert_eq!(track[..2], [0x202, 0x3602]);
    assert!(track[2..].iter().all(|&word| word == 0));
    let lines: [([u32; 4], u64); 10] = [
        ([READ, 0x1000, 4, 0], 0x1234_5678),
        ([WRITE, 0x404, 4, 0x4832], 0),
        ([READ, 0x1000, 4, 0], REFUSAL + 16),
        ([ADDR, 0x1000, 0, 0], 0),
        ([READ, 0x1000, 4, 0], 0x1122_3344),
        ([READ, 0x1002, 4, 0], FAULT + 1),
        ([READ, 0x2000, 1, 0], FAULT + 7),
        ([MODE, 1, 0, 0], 0),
        ([READ, 0x404, 4, 0], FAULT + 0xf),
        ([ALL, 0, 0, 0], REFUSAL + 15),
    ];
    for (number, (operation, answer)) in lines.iter().enumerate() {
        let given = calls::step(operation, &mut registers, &mut memory, &mut track);
        assert_eq!(given, *answer, "line {}", number + 2);
        if number == 1 {
            assert_eq!(track[1], 1);
        }
    }
    assert_eq!(registers, [0, 0, 1, CLIENTS]);
    assert_eq!(track[1], 0x4602);
    let mut expected = image_a();
    expected[0x404..0x408].copy_from_slice(&0x4832_u32.to_le_bytes());
    assert!(memory == expected);
}

/// What the rows of two contexts and the global row hold of pages 0 and 1.
fn rows(track: &[u32]) -> [[u32; 2]; 3] {
    [0, 1024, 2048].map(|at| [track[at], track[at + 1]])
}

/// Words with which roots 0 and 0x80 map page 0 alike and page 1 differently, each with nG set.
const TWO_MAPS: [(usize, u32); 4] = [
    (0x400, 0x832),
    (0x80, 0x801),
    (0x800, 0x832),
    (0x804, 0x4832),
];

/// `root` under context 1 is refused, and leaves registers, memory and track as they are. Under
/// context 0 it is set, and only page 1 is left at 1 there.
#[test]
fn asid_then_root() {
    let mut started = Started::of(2, &TWO_MAPS);
    assert_eq!(started.step([ASID, 1, 0, 0]), 0);
    let before = started.clone();
    assert_eq!(started.step([ROOT, 0x80, 0, 0]), 0x2_0000_0014);
    assert!(started == before);
    assert_eq!(started.registers, [0, 1, 0, CLIENTS]);
    let left = [[0x602, 0x3602], [0x602, 0x3602], [0, 0]];
    assert_eq!(rows(&started.track), left);
    assert_eq!(started.step([READ, 0x1000, 4, 0]), 0x1234_5678);
    assert_eq!(started.step([ASID, 0, 0, 0]), 0);
    assert_eq!(started.step([ROOT, 0x80, 0, 0]), 0);
    assert_eq!(started.registers, [0x80, 0, 0, CLIENTS]);
    let left = [[0x602, 1], [0x602, 0x3602], [0, 0]];
    assert_eq!(rows(&started.track), left);
    assert!(started.track[2048..].iter().all(|&word| word == 0));
    for (page, answer) in [(0, 0x401), (1, REFUSAL + 16)] {
        assert_eq!(started.step([READ, 0x1000 * page, 4, 0]), answer);
    }
}

/// Context 1 sees the map of root 0, context 0 changes the root, and context 1 sees the other map:
/// page 1 is then stale under both. Its words under both are at 1 if nG is set in both maps, its
/// word in the global row if nG is clear in both, and none if nG differs.
#[test]
fn asid_then_root_through_context_0() {
    for (old, new, own, global) in [
        (0x3832, 0x4832, 1, 0),
        (0x3032, 0x4032, 0, 1),
        (0x3832, 0x4032, 0x3602, 0x4682),
        (0x3032, 0x4832, 0x4602, 0x3682),
    ] {
        let page_1 = [(0x404, old), (0x804, new)];
        let mut started = Started::of(2, &[&TWO_MAPS[..], &page_1].concat());
        let switch = [[ASID, 1], [ASID, 0], [ROOT, 0x80], [ASID, 1]];
        for [kind, a] in switch {
            assert_eq!(started.step([kind, a, 0, 0]), 0);
        }
        assert_eq!(started.registers, [0x80, 1, 0, CLIENTS]);
        let left = [[0x602, own], [0x602, own], [0, global]];
        assert_eq!(rows(&started.track), left, "{old:x} to {new:x}");
        for context in [1, 0] {
            assert_eq!(started.step([ASID, context, 0, 0]), 0);
            assert_eq!(started.step([READ, 0x0, 4, 0]), 0x401);
            let given = started.step([READ, 0x1000, 4, 0]);
            assert_eq!(given, REFUSAL + 16, "{old:x} to {new:x}, {context}");
        }
    }
}

/// Context 0 changes the root and context 1 sees the new map alone, then back the same way. What
/// each step answers, and what the two contexts' rows hold of page 1 afterwards.
#[test]
fn a_switch_through_context_0_and_back() {
    let read = [READ, 0x1000, 4, 0];
    let mut started = Started::of(2, &TWO_MAPS);
    for (operation, answer, page_1) in [
        (read, 0x1234_5678, [0x3602, 0]),
        ([ROOT, 0x80, 0, 0], 0, [1, 0]),
        (read, REFUSAL + 16, [1, 0]),
        ([ASID, 1, 0, 0], 0, [1, 0x4602]),
        (read, 0x1122_3344, [1, 0x4602]),
        ([ROOT, 0x0, 0, 0], REFUSAL + 20, [1, 0x4602]),
        ([ASID, 0, 0, 0], 0, [1, 0x4602]),
        (read, REFUSAL + 16, [1, 0x4602]),
        ([ROOT, 0x0, 0, 0], 0, [1, 0x4602]),
        (read, REFUSAL + 16, [1, 0x4602]),
        ([ASID, 1, 0, 0], 0, [1, 1]),
        (read, REFUSAL + 16, [1, 1]),
        ([CTX, 1, 0, 0], 0, [1, 0x3602]),
        (read, 0x1234_5678, [1, 0x3602]),
        ([ASID, 0, 0, 0], 0, [1, 0x3602]),
        ([CTX, 0, 0, 0], 0, [0x3602, 0x3602]),
        (read, 0x1234_5678, [0x3602, 0x3602]),
    ] {
        let given = started.step(operation);
        let [own_0, own_1, global] = rows(&started.track).map(|[_, page_1]| page_1);
        let left = (given, [own_0, own_1], global);
        assert_eq!(left, (answer, page_1, 0), "{operation:x?}");
    }
    assert_eq!(started.registers, [0, 0, 0, CLIENTS]);
}

/// Of two contexts: how many words the track has, the registers, the new root, and by which number
/// `root` is refused. 20 is for the root that is held as for any other, after 13, 14, 10 and 15.
const REFUSED_ROOTS: [(usize, [u32; 4], u32, u64); 19] = [
    (3071, [0, 1, 0, CLIENTS], 0x80, 13),
    (3071, [0x40, 2, 2, 2], 0x40, 13),
    (3072, [0, 2, 0, CLIENTS], 0x80, 14),
    (3072, [0x40, 1, 0, CLIENTS], 0x80, 14),
    (3072, [0, 1, 2, CLIENTS], 0x80, 14),
    (3072, [0, 1, 0, 2], 0x80, 14),
    (3072, [0, 2, 1, CLIENTS], 0x40, 14),
    (3072, [0, 0, 0, CLIENTS], 0x40, 10),
    (3072, [0, 1, 0, CLIENTS], 0x40, 10),
    (3072, [0, 1, 0, CLIENTS], u32::MAX, 10),
    (3072, [0, 1, 1, CLIENTS], 0x40, 10),
    (3072, [0, 0, 1, CLIENTS], 0x80, 15),
    (3072, [0, 1, 1, CLIENTS], 0x80, 15),
    (3072, [0, 1, 1, CLIENTS], 0x0, 15),
    (3072, [0, 1, 0, CLIENTS], 0x80, 20),
    (3072, [0, 1, 0, CLIENTS], 0x0, 20),
    (3072, [0x80, 1, 0, CLIENTS], 0x80, 20),
    (3072, [0, 1, 0, CLIENTS], 0x8000, 20),
    (3072, [0, 1, 0, 0], 0x80, 20),
];

#[test]
fn refused_roots_leave_everything() {
    let image = image_a();
    // Words that noting would fill, and words that a flush would empty.
    let lent: Vec<u32> = (0..3072).map(|at| 7 * (at % 2)).collect();
    let (mut memory, mut track) = (image.clone(), lent.clone());
    for (words, given, new, refusal) in REFUSED_ROOTS {
        for [b, c] in [[0, 0], [u32::MAX, 7]] {
            let mut registers = given;
            let track = &mut track[..words];
            let root = [ROOT, new, b, c];
            let answer = calls::step(&root, &mut registers, &mut memory, track);
            assert_eq!(answer, REFUSAL + refusal, "{root:x?}, {given:x?}");
            assert_eq!(registers, given);
        }
    }
    assert!(memory == image);
    assert!(track == lent);
}

/// Of 256 contexts: `root` is set under context 0 and refused under each other one.
#[test]
fn roots_under_each_context() {
    let mut started = Started::of(256, &TWO_MAPS);
    for context in 0..256 {
        assert_eq!(started.step([ASID, context, 0, 0]), 0);
        for root in [0x80, 0x0] {
            let expected = if context == 0 { 0 } else { REFUSAL + 20 };
            let answer = started.step([ROOT, root, 0, 0]);
            assert_eq!(answer, expected, "root {root:#x}, context {context}");
        }
        assert_eq!(started.registers, [0, context, 0, CLIENTS]);
    }
}

/// Under another context every operation but `root` answers as it does under context 0, `asid` to
/// any context among them.
#[test]
fn other_operations_under_another_context() {
    for context in [0, 1, 2] {
        let mut started = Started::of(3, &TWO_MAPS);
        assert_eq!(started.step([ASID, context, 0, 0]), 0);
        for (operation, answer) in [
            ([READ, 0x1000, 4, 0], 0x1234_5678),
            ([WRITE, 0x1000, 4, 0x55], 0),
            ([FETCH, 0x1000, 0, 0], 0x55),
            ([MODE, 1, 0, 0], 0),
            ([MODE, 0, 0, 0], 0),
            ([DOMAIN, CLIENTS ^ 1, 0, 0], 0),
            ([READ, 0x1000, 4, 0], FAULT + 0xb),
            ([DOMAIN, CLIENTS, 0, 0], 0),
            ([ALL, 0, 0, 0], 0),
            ([ADDR, 0x1000, 0, 0], 0),
            ([CTX, 0, 0, 0], 0),
            ([ADDRCTX, 0x1000, 2, 0], 0),
            ([READ, 0x1000, 2, 0], 0x55),
            ([ASID, context, 0, 0], 0),
            ([ASID, 2, 0, 0], 0),
            ([ASID, 1, 0, 0], 0),
            ([ASID, 0, 0, 0], 0),
        ] {
            let given = started.step(operation);
            assert_eq!(given, answer, "{operation:x?}, context {context}");
        }
    }
}

/// Page 0 is own and page 1 global: each stands in its row alone, and the global entry stays in
/// every context until a flush that names it.
#[test]
fn a_global_page() {
    let mut memory = image_a();
    put(&mut memory, &[(0x404, 0x3032)]);
    let mut track = track(2);
    let mut registers = [0; 4];
    assert_eq!(calls::start(&memory, &mut track, 0, &mut registers), 0);
    assert_eq!(rows(&track), [[0x202, 0], [0, 0], [0, 0x3682]]);
    // What each operation answers, and what the rows hold of pages 0 and 1 afterwards.
    let steps: [([u32; 4], u64, [[u32; 2]; 3]); 9] = [
        ([ASID, 1, 0, 0], 0, [[0x202, 0], [0x202, 0], [0, 0x3682]]),
        (
            [READ, 0x1000, 4, 0],
            0x1234_5678,
            [[0x202, 0], [0x202, 0], [0, 0x3682]],
        ),
        (
            [WRITE, 0x404, 4, 0x4032],
            0,
            [[0x202, 0], [0x202, 0], [0, 1]],
        ),
        (
            [READ, 0x1000, 4, 0],
            REFUSAL + 16,
            [[0x202, 0], [0x202, 0], [0, 1]],
        ),
        ([CTX, 1, 0, 0], 0, [[0x202, 0], [0x202, 0], [0, 1]]),
        (
            [READ, 0x1000, 4, 0],
            REFUSAL + 16,
            [[0x202, 0], [0x202, 0], [0, 1]],
        ),
        (
            [ADDRCTX, 0x1000, 0, 0],
            0,
            [[0x202, 0], [0x202, 0], [0, 0x4682]],
        ),
        (
            [READ, 0x1000, 4, 0],
            0x1122_3344,
            [[0x202, 0], [0x202, 0], [0, 0x4682]],
        ),
        (
            [WRITE, 0x404, 4, 0x4832],
            0,
            [[0x202, 0], [0x202, 0x4602], [0, 0x4682]],
        ),
    ];
    for (operation, answer, left) in steps {
        let given = calls::step(&operation, &mut registers, &mut memory, &mut track);
        assert_eq!((given, rows(&track)), (answer, left), "{operation:x?}");
    }
    // The page turned own: neither word is 1, and it is stale by its global entry.
    let read = [READ, 0x1000, 4, 0];
    let given = calls::step(&read, &mut registers, &mut memory, &mut track);
    assert_eq!(given, REFUSAL + 16);
}

/// A machine started on image A.
#[derive(Clone, PartialEq)]
struct Started {
    memory: Vec<u8>,
    track: Vec<u32>,
    registers: [u32; 4],
}

impl Started {
    /// Of one context, with these words put in.
    fn with(words: &[(usize, u32)]) -> Started {
        Started::of(1, words)
    }

    /// Of this many contexts, with these words put in.
    fn of(contexts: usize, words: &[(usize, u32)]) -> Started {
        let (mut memory, mut track, mut registers) = (image_a(), track(contexts), [9; 4]);
        put(&mut memory, words);
        assert_eq!(calls::start(&memory, &mut track, 0, &mut registers), 0);
        Started {
            memory,
            track,
            registers,
        }
    }

    fn step(&mut self, operation: [u32; 4]) -> u64 {
        let registers = &mut self.registers;
        calls::step(&operation, registers, &mut self.memory, &mut self.track)
    }

    /// The answers to a read of four bytes and to a fetch, in kernel mode, then in user mode.
    fn read_and_fetched(&mut self, address: u32) -> [[u64; 2]; 2] {
        [0, 1].map(|mode| {
            assert_eq!(self.step([MODE, mode, 0, 0]), 0);
            [[READ, address, 4, 0], [FETCH, address, 0, 0]].map(|o| self.step(o))
        })
    }

    /// The answers to a read, to a write of the word that stands at 0x3000 and to a fetch, in
    /// kernel mode, then in user mode. It begins and ends in kernel mode.
    fn accessed(&mut self, address: u32) -> [[u64; 3]; 2] {
        let write = [WRITE, address, 4, 0x1234_5678];
        let accesses = [[READ, address, 4, 0], write, [FETCH, address, 0, 0]];
        let kernel = accesses.map(|o| self.step(o));
        assert_eq!(self.step([MODE, 1, 0, 0]), 0);
        let user = accesses.map(|o| self.step(o));
        assert_eq!(self.step([MODE, 0, 0, 0]), 0);
        [kernel, user]
    }
}

/// What is read and fetched from page 1, by its AP and XN, in both modes. Where nothing is read
/// nothing is fetched, and XN stops a fetch and no read.
#[test]
fn fetches_by_ap_and_xn() {
    let none = FAULT + 0xf;
    let word = 0x1234_5678;
    for (ap, kernel, user) in [
        (0, none, none),
        (1, word, none),
        (2, word, word),
        (3, word, word),
        (4, none, none),
        (5, word, none),
        (6, word, word),
        (7, word, word),
    ] {
        let small = 0x3802 | (ap & 3) << 4 | (ap >> 2) << 9;
        let mut clear = Started::with(&[(0x404, small)]);
        let found = clear.read_and_fetched(0x1000);
        assert_eq!(found, [[kernel, kernel], [user, user]], "AP {ap}");
        let mut set = Started::with(&[(0x404, small | 1)]);
        let found = set.read_and_fetched(0x1000);
        assert_eq!(found, [[kernel, none], [user, none]], "AP {ap}, XN");
    }
}

/// As for the small page, so for a large page and a section, whose permission fault is another. A
/// store goes through with XN set.
#[test]
fn fetches_from_each_kind_of_page() {
    let word = 0x1234_5678;
    for (at, clear, xn, address, fault) in [
        (0x404, 0x3832, 1, 0x1000, 0xf),
        (0x44C, 0x831, 1 << 15, 0x1_3000, 0xf),
        (0x4, 0x2_0C02, 1 << 4, 0x10_3000, 0xd),
    ] {
        let mut open = Started::with(&[(at, clear)]);
        assert_eq!(open.read_and_fetched(address), [[word, word]; 2]);
        let mut shut = Started::with(&[(at, clear | xn)]);
        let stopped = [word, FAULT + fault];
        assert_eq!(shut.read_and_fetched(address), [stopped; 2]);
        assert_eq!(shut.step([WRITE, address, 4, 5]), 0);
        assert_eq!(shut.step([READ, address, 4, 0]), 5);
    }
}

/// A fetch takes four bytes, the low one first, and looks at neither b nor c.
#[test]
fn what_a_fetch_asks_for() {
    let mut started = Started::with(&[]);
    let left = (started.memory.clone(), started.track.clone());
    for (b, c) in [(0, 0), (1, 0), (3, 0), (0, 1), (u32::MAX, u32::MAX)] {
        let fetch = [FETCH, 0x1000, b, c];
        assert_eq!(started.step(fetch), 0x1234_5678, "{fetch:x?}");
        let last = [FETCH, 0x1FFC, b, c];
        assert_eq!(started.step(last), 0, "{last:x?}");
        for unaligned in [0x1001, 0x1002, 0x1003, 0x1FFF] {
            let fetch = [FETCH, unaligned, b, c];
            assert_eq!(started.step(fetch), FAULT + 1, "{fetch:x?}");
        }
    }
    assert!(left == (started.memory, started.track));
}

/// The last page of the window is mapped to frame 3. What lies behind the window is refused, aligned
/// or not, in both modes.
#[test]
fn fetches_at_the_end_of_the_window() {
    let words = [(0xC, 0x801), (0xBFC, 0x3832), (0x3FFC, 0x89AB_CDEF)];
    let mut started = Started::with(&words);
    for mode in [0, 1] {
        assert_eq!(started.step([MODE, mode, 0, 0]), 0);
        for (address, answer) in [
            (0x3F_FFFC, 0x89AB_CDEF),
            (0x3F_FFFD, FAULT + 1),
            (0x3F_FFFF, FAULT + 1),
            (0x40_0000, REFUSAL + 8),
            (0x40_0001, REFUSAL + 8),
            (u32::MAX, REFUSAL + 8),
        ] {
            let given = started.step([FETCH, address, 0, 0]);
            assert_eq!(given, answer, "{address:#x}, mode {mode}");
        }
    }
}

/// The faults of a fetch that come from its walk or its frame.
#[test]
fn fetches_out_of_the_map_and_out_of_memory() {
    let words = [(0x8, 0x8001), (0x404, 0x8832), (0x408, 0x8833)];
    let mut started = Started::with(&words);
    for (address, fault) in [
        (0x10_0000, 0x5),
        (0x20_0000, 0xe),
        (0x3000, 0x7),
        (0x1000, 0x8),
        (0x2000, 0xf),
    ] {
        let given = started.step([FETCH, address, 0, 0]);
        assert_eq!(given, FAULT + fault, "{address:#x}");
    }
    // Behind the end of memory, where no page is mapped.
    assert_eq!(started.step([ROOT, 0x8000, 0, 0]), 0);
    assert_eq!(started.step([ALL, 0, 0, 0]), 0);
    assert_eq!(started.step([FETCH, 0x1000, 0, 0]), FAULT + 0xc);
}

/// Only XN of page 1 changes: its word is at 1, and it is stale for reads, writes and fetches until
/// a flush. An unaligned fetch of a stale page is fault 1.
#[test]
fn xn_alone_changed() {
    let accesses = [
        [READ, 0x1000, 4, 0],
        [READ, 0x1001, 1, 0],
        [WRITE, 0x1000, 4, 0x1234_5678],
        [FETCH, 0x1000, 0, 0],
    ];
    for (old, new, word, fetched) in [
        (0x3832, 0x3833, 0x3642, FAULT + 0xf),
        (0x3833, 0x3832, 0x3602, 0x1234_5678),
    ] {
        let mut started = Started::with(&[(0x404, old)]);
        assert_eq!(started.step([WRITE, 0x404, 4, new]), 0);
        assert_eq!(started.track[1], 1);
        for access in accesses {
            assert_eq!(started.step(access), REFUSAL + 16, "{access:x?}");
        }
        assert_eq!(started.step([FETCH, 0x1002, 0, 0]), FAULT + 1);
        assert_eq!(started.step([ADDR, 0x1000, 0, 0]), 0);
        assert_eq!(started.track[1], word);
        for (access, answer) in accesses.into_iter().zip([0x1234_5678, 0x56, 0, fetched]) {
            assert_eq!(started.step(access), answer, "{access:x?}");
        }
    }
}

/// A lent word of page 1 that differs from that of its entry in one bit. With another section bit,
/// XN or domain it is another entry, and noting leaves 1; with bit 0, without bit 1, or with a bit
/// 7 that does not suit the row it stays. A flush leaves the right word.
#[test]
fn words_that_differ_in_one_bit() {
    for bit in 0..=8 {
        let lent = 0x3602 ^ 1 << bit;
        let mut started = Started::with(&[]);
        started.track[1] = lent;
        for access in [[READ, 0x1000, 4, 0], [FETCH, 0x1000, 0, 0]] {
            assert_eq!(started.step(access), REFUSAL + 16, "bit {bit}");
        }
        assert_eq!(started.track[1], lent, "bit {bit}");
        assert_eq!(started.step([FETCH, 0x1002, 0, 0]), FAULT + 1);
        let noted = if [0, 1, 7].contains(&bit) { lent } else { 1 };
        assert_eq!(started.track[1], noted, "bit {bit}");
        assert_eq!(started.step([CTX, 0, 0, 0]), 0);
        assert_eq!(started.track[1], 0x3602, "bit {bit}");
    }
}

/// The domain register after a start, after `domain`, which looks at neither b nor c, and after one
/// that is refused: for a field of 2, or in user mode. Where both hold it is 17.
#[test]
fn the_domain_register() {
    let mut started = Started::with(&[]);
    assert_eq!(started.registers, [0, 0, 0, CLIENTS]);
    let in_kernel_mode = [
        ([DOMAIN, 0, 0, 0], 0, 0),
        ([DOMAIN, 0x5555_5556, 0, 0], REFUSAL + 17, 0),
        ([DOMAIN, u32::MAX, u32::MAX, u32::MAX], 0, u32::MAX),
        ([DOMAIN, 0x9555_5555, 0, 0], REFUSAL + 17, u32::MAX),
        ([DOMAIN, 0xC000_0003, 1, 1], 0, 0xC000_0003),
        ([DOMAIN, 0xAAAA_AAAA, 0, 0], REFUSAL + 17, 0xC000_0003),
    ];
    for (operation, answer, left) in in_kernel_mode {
        assert_eq!(started.step(operation), answer, "{operation:x?}");
        assert_eq!(started.registers, [0, 0, 0, left], "{operation:x?}");
    }
    assert_eq!(started.step([MODE, 1, 0, 0]), 0);
    for (value, number) in [(CLIENTS, 15), (0xC000_0003, 15), (2, 17), (2 << 30, 17)] {
        let given = started.step([DOMAIN, value, 0, 0]);
        assert_eq!(given, REFUSAL + number, "{value:#x}");
        assert_eq!(started.registers, [0, 0, 1, 0xC000_0003], "{value:#x}");
    }
}

/// Each field by itself: a 2 there is 17 in a new value, and 14 in the register that is held,
/// whatever the operation.
#[test]
fn a_field_of_2() {
    for domain in 0..16 {
        for rest in [0, CLIENTS, u32::MAX] {
            let field = |n: u32| rest & !(3 << (2 * domain)) | n << (2 * domain);
            let mut started = Started::with(&[]);
            for n in [0, 1, 3] {
                assert_eq!(started.step([DOMAIN, field(n), 0, 0]), 0);
                assert_eq!(started.registers[3], field(n));
            }
            assert_eq!(started.step([DOMAIN, field(2), 0, 0]), REFUSAL + 17);
            assert_eq!(started.registers[3], field(3));
            started.registers[3] = field(2);
            let left = (started.memory.clone(), started.track.clone());
            for kind in READ..=DOMAIN {
                let given = started.step([kind, 0, 3, 0]);
                assert_eq!(given, REFUSAL + 14, "kind {kind}, {:#x}", field(2));
            }
            assert_eq!(started.step([DOMAIN, field(2), 0, 0]), REFUSAL + 14);
            assert_eq!(started.registers[3], field(2));
            assert!(left == (started.memory, started.track));
        }
    }
}

/// Zero registers, as a refused start returns them, are in range, and close every domain.
#[test]
fn after_a_refused_start() {
    let (mut memory, mut track, mut registers) = (image_a(), track(1), [9; 4]);
    put(&mut memory, &[(0x4, 0x2_0C02)]);
    let answer = calls::start(&memory, &mut track, 0x40, &mut registers);
    assert_eq!((answer, registers), (REFUSAL + 10, [0; 4]));
    assert!(track.iter().all(|&word| word == 0));
    for (address, answer) in [
        (0x0, FAULT + 0xb),
        (0x1000, FAULT + 0xb),
        (0x10_0000, FAULT + 0x9),
        (0x2000, FAULT + 0x7),
        (0x20_0000, FAULT + 0x5),
    ] {
        let read = [READ, address, 4, 0];
        let given = calls::step(&read, &mut registers, &mut memory, &mut track);
        assert_eq!(given, answer, "{address:#x}");
    }
    assert_eq!(registers, [0; 4]);
}

/// A domain register with this field for a domain, and in all others one that would not do: 3 where
/// it is 0, else 0.
fn field_alone(domain: u32, field: u32) -> u32 {
    let others = if field == 0 { u32::MAX } else { 0 };
    others & !(3 << (2 * domain)) | field << (2 * domain)
}

/// In each domain, address 0x3000 by a small page, a large page and a section, of which each has AP
/// 3 and XN clear, or AP 0 and XN set. With field 0 nothing is allowed, with 3 everything, in both
/// modes; with 1 it goes by AP and XN. The fields of the other domains do not matter.
#[test]
fn accesses_by_the_field_of_their_domain() {
    let free = [[0x1234_5678, 0, 0x1234_5678]; 2];
    let all = |fault| [[FAULT + fault; 3]; 2];
    for domain in 0..16 {
        for (small, large, section, has_rights) in [
            (0x3832, 0x831, 0x2_0C02, true),
            (0x3803, 0x8801, 0x2_0012, false),
        ] {
            let pages = [(0x0, 0x401 | domain << 5), (0x404, small), (0x44C, large)];
            let words = [&pages[..], &[(0x4, section | domain << 5)]].concat();
            let mut started = Started::with(&words);
            for (address, closed, permission) in [
                (0x1000, 0xb, 0xf),
                (0x1_3000, 0xb, 0xf),
                (0x10_3000, 0x9, 0xd),
            ] {
                let by_rights = if has_rights { free } else { all(permission) };
                for (field, expected) in [(0, all(closed)), (1, by_rights), (3, free)] {
                    let value = field_alone(domain, field);
                    assert_eq!(started.step([DOMAIN, value, 0, 0]), 0);
                    let found = started.accessed(address);
                    assert_eq!(found, expected, "{address:#x}, domain {domain}, {field}");
                }
            }
        }
    }
}

/// Page 1 with each AP, XN clear and set: whatever they are, field 0 allows nothing and field 3
/// everything.
#[test]
fn field_0_and_field_3_by_ap_and_xn() {
    let free = [[0x1234_5678, 0, 0x1234_5678]; 2];
    for ap in 0..8 {
        for xn in 0..2 {
            let small = 0x3802 | (ap & 3) << 4 | (ap >> 2) << 9 | xn;
            let mut started = Started::with(&[(0x404, small)]);
            for (field, expected) in [(0, [[FAULT + 0xb; 3]; 2]), (3, free)] {
                let value = field_alone(0, field);
                assert_eq!(started.step([DOMAIN, value, 0, 0]), 0);
                let found = started.accessed(0x1000);
                assert_eq!(found, expected, "AP {ap}, XN {xn}, field {field}");
            }
        }
    }
}

/// What comes before the domain fault and what behind it, by the field: alignment and the faults of
/// the walk are the same in all; bytes that are not in memory show where the access is allowed.
#[test]
fn the_place_of_the_domain_fault() {
    let words = [(0x8, 0x8001), (0x404, 0x8832), (0x408, 0x8803)];
    let words = [&words[..], &[(0xC, 0x10_0002 | 1 << 17)]].concat();
    for (field, open_page, shut_page, shut_section) in
        [(0, 0xb, 0xb, 0x9), (1, 0x8, 0xf, 0xd), (3, 0x8, 0x8, 0x8)]
    {
        let mut started = Started::with(&words);
        assert_eq!(started.step([DOMAIN, field, 0, 0]), 0);
        for (address, fault) in [
            (0x1002, 0x1),
            (0x10_0000, 0x5),
            (0x20_0000, 0xe),
            (0x3000, 0x7),
            (0x1000, open_page),
            (0x2000, shut_page),
            (0x30_0000, shut_section),
        ] {
            for access in [[READ, address, 4, 0], [FETCH, address, 0, 0]] {
                let given = started.step(access);
                assert_eq!(given, FAULT + fault, "{access:x?}, field {field}");
            }
        }
        assert_eq!(started.step([ROOT, 0x8000, 0, 0]), 0);
        assert_eq!(started.step([ALL, 0, 0, 0]), 0);
        assert_eq!(started.step([READ, 0x1000, 4, 0]), FAULT + 0xc);
    }
}

/// Only the domain changes, of a section's word or of the word that points to a table: every page
/// that it maps is at 1 and stale for every access until a flush, and no other page is. A closed
/// domain does not come before that.
#[test]
fn the_domain_alone_changed() {
    let sections = [(0x4, 0x2_0C02), (0x8, 0x2_0C02)];
    for (at, new, mapped, noted) in [
        (0x4, 0x2_0CA2, 256..512, [0x716, 0x1716]),
        (0x0, 0x4A1, 0..2, [0x216, 0x3616]),
    ] {
        let mut started = Started::with(&sections);
        let before = started.track.clone();
        assert_eq!(started.step([WRITE, at, 4, new]), 0);
        let marked = |page: usize| {
            if mapped.contains(&page) {
                1
            } else {
                before[page]
            }
        };
        assert!(started.track[..1024] == (0..1024).map(marked).collect::<Vec<u32>>());
        for domains in [CLIENTS, 0, u32::MAX] {
            assert_eq!(started.step([DOMAIN, domains, 0, 0]), 0);
            for page in mapped.clone() {
                let found = started.accessed((page as u32) << 12);
                assert_eq!(found, [[REFUSAL + 16; 3]; 2], "page {page}");
            }
            let other = started.step([READ, 0x20_3000, 4, 0]);
            let expected = if domains == 0 {
                FAULT + 0x9
            } else {
                0x1234_5678
            };
            assert_eq!(other, expected);
        }
        assert_eq!(started.step([CTX, 0, 0, 0]), 0);
        assert_eq!(started.track[mapped.start..][..2], noted);
        assert_eq!(started.step([READ, 0x10_3000, 4, 0]), 0x1234_5678);
    }
}

/// The domain alone is changed and changed back in context 1: both entries stand in its set, and
/// context 0, which noted the first alone, trusts it until it is changed there.
#[test]
fn the_domain_changed_and_changed_back() {
    for (at, old, new, address) in [
        (0x4, 0x2_0C02, 0x2_0D02, 0x10_3000),
        (0x0, 0x401, 0x501, 0x1000),
    ] {
        let (mut memory, mut track, mut registers) = (image_a(), track(2), [0; 4]);
        // Page 512 is the tables, by a table of its own.
        put(
            &mut memory,
            &[(0x4, 0x2_0C02), (0x8, 0x801), (0x800, 0x832)],
        );
        assert_eq!(calls::start(&memory, &mut track, 0, &mut registers), 0);
        let (read, store) = ([READ, address, 4, 0], |word| {
            [WRITE, 0x20_0000 + at, 4, word]
        });
        for (operation, answer) in [
            ([ASID, 1, 0, 0], 0),
            (read, 0x1234_5678),
            (store(new), 0),
            (read, REFUSAL + 16),
            (store(old), 0),
            (read, REFUSAL + 16),
            ([ASID, 0, 0, 0], 0),
            (read, 0x1234_5678),
            (store(new), 0),
            (read, REFUSAL + 16),
            ([CTX, 0, 0, 0], 0),
            (read, 0x1234_5678),
        ] {
            let given = calls::step(&operation, &mut registers, &mut memory, &mut track);
            assert_eq!(given, answer, "{operation:x?}");
        }
    }
}

/// `domain` changes no word of the track and makes no page stale: what is noted already is used
/// with the register of the time of the access.
#[test]
fn a_new_domain_register_makes_nothing_stale() {
    let mut started = Started::with(&[(0x4, 0x2_0C02 | 15 << 5), (0x408, 0x3033)]);
    let (memory, track) = (started.memory.clone(), started.track.clone());
    for (value, page, section) in [
        (0x5555_5554, FAULT + 0xb, 0x1234_5678),
        (0x1555_5555, 0x1234_5678, FAULT + 0x9),
        (0x0, FAULT + 0xb, FAULT + 0x9),
        (0xC000_0000, FAULT + 0xb, 0x1234_5678),
        (u32::MAX, 0x1234_5678, 0x1234_5678),
        (CLIENTS, 0x1234_5678, 0x1234_5678),
    ] {
        assert_eq!(started.step([DOMAIN, value, 0, 0]), 0);
        for (address, answer) in [(0x1000, page), (0x10_3000, section)] {
            let given = started.step([READ, address, 4, 0]);
            assert_eq!(given, answer, "{value:#x}, {address:#x}");
        }
        assert!(started.memory == memory && started.track == track);
    }
}

/// A row for each of 1 to 256 contexts and the global one; no other length.
#[test]
fn lengths_of_tracks() {
    let mut memory = image_a();
    for (words, fits) in [
        (0, false),
        (1023, false),
        (1024, false),
        (1025, false),
        (2 * 1024, true),
        (2 * 1024 + 1, false),
        (9 * 1024, true),
        (257 * 1024 - 1, false),
        (257 * 1024, true),
        (258 * 1024, false),
    ] {
        let expected = if fits { 0 } else { REFUSAL + 13 };
        let (mut track, mut registers) = (vec![0; words], [0; 4]);
        let answer = calls::start(&memory, &mut track, 0, &mut registers);
        assert_eq!(answer, expected, "{words} words, start");
        let mode = [MODE, 0, 0, 0];
        let answer = calls::step(&mode, &mut registers, &mut memory, &mut track);
        assert_eq!(answer, expected, "{words} words, mode");
        if fits {
            let contexts = (words / 1024 - 1) as u32;
            for (context, answer) in [(contexts - 1, 0), (contexts, REFUSAL + 11)] {
                let asid = [ASID, context, 0, 0];
                let given = calls::step(&asid, &mut registers, &mut memory, &mut track);
                assert_eq!(given, answer, "{words} words, context {context}");
            }
        }
    }
}

/// A word for one entry in a row of the other kind: the page is stale, the word stays when the page
/// is noted, and goes with a flush. Page 0 is own, page 1 global.
#[test]
fn words_in_a_row_of_the_other_kind() {
    let mut image = image_a();
    put(&mut image, &[(0x404, 0x3032)]);
    for (page, at, word, flush) in [
        (0, 1024, 0x202, [ADDRCTX, 0x0, 0, 0]),
        (1, 1, 0x3682, [CTX, 0, 0, 0]),
    ] {
        let (mut memory, mut track) = (image.clone(), track(1));
        let mut registers = [0, 0, 0, CLIENTS];
        let mut step = |operation: [u32; 4], track: &mut Vec<u32>| {
            calls::step(&operation, &mut registers, &mut memory, track)
        };
        track[at] = word;
        assert_eq!(step([MODE, 0, 0, 0], &mut track), 0);
        assert_eq!(track[at], word, "page {page}: the word stays");
        let read = [READ, 0x1000 * page, 4, 0];
        assert_eq!(step(read, &mut track), REFUSAL + 16, "page {page}");
        assert_eq!(step(flush, &mut track), 0);
        assert_eq!(track[at], 0, "page {page}: the word goes");
        let value = [0x401, 0x1234_5678][page as usize];
        assert_eq!(step(read, &mut track), value, "page {page}");
    }
}

#[test]
fn refusals_leave_everything() {
    let image = image_a();
    let mut memory = image.clone();
    let mut track = vec![7; 2 * 1024];
    // a start with a wrong root: zero registers, the rest as lent
    let mut registers = [9; 4];
    assert_eq!(
        calls::start(&memory, &mut track, 1, &mut registers),
        REFUSAL + 10
    );
    assert_eq!(registers, [0; 4]);
    // a wrong length, registers out of range, a stale page
    let states: [(usize, [u32; 4], u64); 9] = [
        (1024, [0, 0, 0, CLIENTS], 13),
        (2047, [0, 0, 0, CLIENTS], 13),
        (2047, [0, 0, 0, 2], 13),
        (2048, [0, 1, 0, CLIENTS], 14),
        (2048, [0x40, 0, 0, CLIENTS], 14),
        (2048, [0, 0, 0, 0x5555_5556], 14),
        (2048, [0, 0, 1, 0x9555_5555], 14),
        (2048, [0, 0, 0, CLIENTS], 16),
        (2048, [0, 0, 0, 0], 16),
    ];
    for (words, given, refusal) in states {
        for operation in [[READ, 0, 4, 0], [FETCH, 0, 0, 0]] {
            let mut registers = given;
            let track = &mut track[..words];
            let answer = calls::step(&operation, &mut registers, &mut memory, track);
            assert_eq!(answer, REFUSAL + refusal);
            assert_eq!(registers, given);
        }
    }
    assert!(memory == image);
    assert!(track.iter().all(|&word| word == 7));
}

/// Words that are no operation: not four, or of no kind. Words that are no registers: not four.
#[test]
fn words_that_are_no_call() {
    let image = image_a();
    let mut memory = image.clone();
    let mut track = vec![7; 2 * 1024];
    let mut registers = [0, 0, 0, CLIENTS, 0];
    for operation in [
        &[READ, 0, 4][..],
        &[FETCH, 0, 0],
        &[FETCH, 0, 0, 0, 0],
        &[DOMAIN, 0, 0],
        &[DOMAIN, 0, 0, 0, 0],
        &[11, 0, 4, 0],
        &[12, 0, 0, 0],
        &[u32::MAX, 0, 4, 0],
    ] {
        let four = &mut registers[..4];
        let answer = calls::step(operation, four, &mut memory, &mut track);
        assert_eq!(answer, NO_CALL, "{operation:x?}");
    }
    for words in [0, 3, 5] {
        let registers = &mut registers[..words];
        let answer = calls::start(&memory, &mut track, 0, registers);
        assert_eq!(answer, NO_CALL, "a start with {words} words");
        let mode = [MODE, 1, 0, 0];
        let answer = calls::step(&mode, registers, &mut memory, &mut track);
        assert_eq!(answer, NO_CALL, "a step with {words} words");
    }
    assert_eq!(registers, [0, 0, 0, CLIENTS, 0]);
    assert!(memory == image);
    assert!(track.iter().all(|&word| word == 7));
}
