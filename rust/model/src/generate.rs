//! Images and lists on which maps change often: stores to descriptors, pages that turn from own to
//! global and back, XN set and cleared, domains changed, opened and closed, contexts switched,
//! roots switched under context 0 and tried under others, flushes of each kind, stores that are
//! nearly quiet.
use crate::generate_stores::nearly_quiet;
use crate::machine::{Kind, Operation, CLIENTS, KINDS};
use crate::random::Random;

/// Image A of the rules: 32,768 bytes, zero but for five words.
pub fn image_a() -> Vec<u8> {
    let mut image = vec![0; 32_768];
    for (at, word) in [
        (0x0, 0x401_u32),
        (0x400, 0x812),
        (0x404, 0x3832),
        (0x3000, 0x1234_5678),
        (0x4000, 0x1122_3344),
    ] {
        image[at..at + 4].copy_from_slice(&word.to_le_bytes());
    }
    image
}

/// The bytes of memory in which the generated tables lie: a page of roots, then tables.
const TABLES: u32 = 0x2000;

/// The most bytes that a generated image has.
const MOST: u32 = 0x8000;

/// nG of a section, and of a page.
pub(crate) const NG_SECTION: u32 = 1 << 17;
const NG_PAGE: u32 = 1 << 11;

/// XN of a section, of a large page, and of a small one.
const XN_SECTION: u32 = 1 << 4;
const XN_LARGE: u32 = 1 << 15;
const XN_SMALL: u32 = 1;

/// The domain of a level-one word.
const DOMAIN: u32 = 0xF << 5;

/// A section at 0, AP 3, in domain 0, which is global and may be fetched from.
pub(crate) const SECTION: u32 = 0xC02;

/// A table of generated images that maps a MiB as such sections do, page by page: its even pages are
/// own and its odd ones global, and two in four have XN set.
const EQUAL_PAGES: u32 = 0x1C00;

/// The pages that generated lists touch.
pub const PAGES: [u32; 14] = [0, 1, 2, 3, 4, 16, 17, 255, 256, 257, 300, 511, 512, 1023];

/// A domain: mostly one of a few, so that what descriptors use is what registers open and close.
pub(crate) fn domain(random: &mut Random) -> u32 {
    match random.below(8) {
        0 => random.below(16) as u32,
        _ => *random.pick(&[0, 0, 1, 8, 15]),
    }
}

/// A level-one word in another domain.
pub(crate) fn in_domain(word: u32, domain: u32) -> u32 {
    word & !DOMAIN | domain << 5
}

/// A domain register with another field for a domain.
pub fn with_field(domains: u32, domain: u32, field: u32) -> u32 {
    domains & !(3 << (2 * domain)) | field << (2 * domain)
}

/// A domain register that is in range: 0, 1 or 3 in each field.
pub fn any_domains(random: &mut Random) -> u32 {
    (0..16).fold(0, |domains, domain| {
        with_field(domains, domain, *random.pick(&[0, 1, 3]))
    })
}

/// A domain register that is in range: mostly 1 in all fields but three at most.
pub fn domains(random: &mut Random) -> u32 {
    if random.one_in(8) {
        return any_domains(random);
    }
    (0..random.below(4)).fold(CLIENTS, |domains, _| {
        with_field(domains, domain(random), *random.pick(&[0, 3, 3]))
    })
}

/// A domain register with a field that is 2: the first, the last or another.
pub fn with_reserved(random: &mut Random, domains: u32) -> u32 {
    let domain = match random.below(3) {
        0 => 0,
        1 => 15,
        _ => random.below(16) as u32,
    };
    with_field(domains, domain, 2)
}

/// A level-one word that maps a MiB to the frames at 0 with AP 3: a section, own or global, with XN
/// clear or set, or the table of equal pages. Mostly in domain 0.
fn mib(random: &mut Random) -> u32 {
    let xn = if random.one_in(3) { XN_SECTION } else { 0 };
    let word = match random.below(3) {
        0 => SECTION | NG_SECTION | xn,
        1 => SECTION | xn,
        _ => EQUAL_PAGES | 1,
    };
    let domain = if random.one_in(3) { domain(random) } else { 0 };
    in_domain(word, domain)
}

/// The level-one word of a root's first MiB, in domain 0: it points to the table whose first pages
/// are the tables.
pub(crate) fn pointer(root: u32) -> u32 {
    0x401 | (root & 0x80) << 5
}

/// A level-one word: mostly one that maps something, now and then by a table behind all memory.
fn first(random: &mut Random) -> u32 {
    let table = if random.one_in(16) {
        MOST
    } else {
        0x400 * (1 + random.below(u64::from(TABLES / 0x400) - 1)) as u32
    };
    let (any, domain) = (random.word(), domain(random));
    match random.below(9) {
        0..=4 => in_domain(table | 1 | (any & 0x3FC), domain),
        5..=6 => in_domain((any & 0x000F_FFFF & !0x4_0000) | 2, domain),
        7 => any,
        _ => 0,
    }
}

/// A level-two word: mostly a small page in memory or near its end, own or global, with XN clear or
/// set.
fn second(random: &mut Random, memory: u32) -> u32 {
    let frame = random.below(u64::from(memory / 4096) + 1) as u32;
    let rights = (random.word() & 0x230) | if random.one_in(4) { 0 } else { 0x30 };
    let rest = rights | (random.word() & NG_PAGE);
    match random.below(10) {
        0..=6 => frame << 12 | rest | 2 | (random.word() & XN_SMALL),
        7 => (random.word() & (0x1_0000 | XN_LARGE)) | rest | 1,
        8 => random.word(),
        _ => 0,
    }
}

/// A word that may stand where a descriptor does.
pub fn descriptor(random: &mut Random, memory: u32) -> u32 {
    if random.one_in(3) {
        first(random)
    } else {
        second(random, memory)
    }
}

/// An image of some pages with tables in its first two, which page 0 and 1 map to themselves.
pub fn image(random: &mut Random) -> Vec<u8> {
    let memory = 4096 * (3 + random.below(6)) as u32;
    let mut bytes: Vec<u8> = (0..memory).map(|_| random.word() as u8).collect();
    let mut put = |at: u32, word: u32| {
        bytes[at as usize..at as usize + 4].copy_from_slice(&word.to_le_bytes());
    };
    for at in (0..0x400).step_by(4) {
        put(at, first(random));
    }
    for at in (0x400..TABLES).step_by(4) {
        put(at, second(random, memory));
    }
    // The first MiB of every root that lists use has the same domain more often than not.
    let shared = domain(random);
    for root in ROOTS {
        let own = if random.one_in(4) {
            domain(random)
        } else {
            shared
        };
        put(root, in_domain(pointer(root), own));
    }
    for table in [0x400, 0x400 + 0x1000] {
        put(table, 0x032 | random.word() & (NG_PAGE | XN_SMALL));
        put(table + 4, 0x1032 | random.word() & (NG_PAGE | XN_SMALL));
        // Pages 16 and 17 are often of large pages, each by a word of its own.
        if random.one_in(2) {
            for at in [table + 0x40, table + 0x44] {
                put(at, 0x031 | random.word() & (NG_PAGE | XN_LARGE));
            }
        }
    }
    for page in 0..256 {
        let ng = if page % 2 == 0 { NG_PAGE } else { 0 };
        let xn = if page % 4 < 2 { 0 } else { XN_SMALL };
        put(EQUAL_PAGES + 4 * page, page << 12 | 0x032 | ng | xn);
    }
    bytes
}

/// The roots that lists use.
pub const ROOTS: [u32; 3] = [0, 0x80, 0x100];

pub(crate) fn op(kind: Kind, a: u32, b: u32, c: u32) -> Operation {
    Operation { kind, a, b, c }
}

/// An operation on a machine with this many contexts and this much memory.
pub fn operation(random: &mut Random, contexts: u32, memory: u32) -> Operation {
    let page = *random.pick(&PAGES);
    let at = page << 12 | (random.word() & 0xFFF);
    let context = random.below(u64::from(contexts)) as u32;
    let size = *random.pick(&[1, 2, 4, 4, 4, 4]);
    let aligned = at / size * size;
    match random.below(33) {
        0..=4 => op(Kind::Read, aligned, size, 0),
        5 => op(Kind::Read, at, size, 0),
        6..=7 => {
            let value = random.word() & (u64::MAX >> (64 - 8 * size)) as u32;
            op(Kind::Write, aligned, size, value)
        }
        8..=12 => {
            let at = *random.pick(&[0, 4, 0x80, 0x400, 0x404, 0x408, 0x444, 0x1404, 0x1408]);
            op(Kind::Write, at, 4, descriptor(random, memory))
        }
        13 => op(Kind::Root, *random.pick(&ROOTS), 0, 0),
        14 => op(Kind::Asid, context, 0, 0),
        15 => op(Kind::Mode, u32::from(random.one_in(3)), 0, 0),
        16..=19 => flush(random, at, context),
        20..=23 => op(Kind::Fetch, at & !3, 0, 0),
        24 => op(Kind::Fetch, at, 0, 0),
        25 => xn_store(random),
        26 => domain_store(random),
        27..=28 => op(Kind::Domain, domains(random), 0, 0),
        // Splits a section into equal pages or joins them, turns a section's pages, or changes their
        // XN or their domain.
        _ => {
            let at = *random.pick(&ROOTS) + *random.pick(&[4, 4, 8, 0xC]);
            op(Kind::Write, at, 4, mib(random))
        }
    }
}

/// A store of one byte that may change XN alone: of a section of these lists, of a small page with
/// AP 3, or of a large one whose other bits in that byte are clear but for nG.
fn xn_store(random: &mut Random) -> Operation {
    let any = random.word();
    let (at, byte) = match random.below(3) {
        0 => {
            let at = *random.pick(&ROOTS) + *random.pick(&[4, 8, 0xC]);
            (at, SECTION & 0xFF | any & XN_SECTION)
        }
        1 => (*random.pick(&[0x404, 0x408, 0x1408]), 0x32 | any & XN_SMALL),
        _ => (
            *random.pick(&[0x441, 0x445, 0x1441]),
            (any & (XN_LARGE | NG_PAGE)) >> 8,
        ),
    };
    op(Kind::Write, at, 1, byte)
}

/// A store of one byte that may change the domain alone, of a section or a pointer of these lists:
/// the low byte has three bits of it, the next one the fourth.
fn domain_store(random: &mut Random) -> Operation {
    let root = *random.pick(&ROOTS);
    let (at, word) = match random.below(6) {
        0 => (root, pointer(root)),
        1..=2 => (root + 4, EQUAL_PAGES | 1),
        _ => (root + *random.pick(&[4, 8, 0xC]), SECTION),
    };
    let bytes = in_domain(word, domain(random)).to_le_bytes();
    let byte = random.below(2) as u32;
    let value = u32::from(bytes[byte as usize]);
    op(Kind::Write, at + byte, 1, value)
}

/// A flush that names everything, this page, this context or both.
fn flush(random: &mut Random, at: u32, context: u32) -> Operation {
    match random.below(4) {
        0 => op(Kind::All, 0, 0, 0),
        1 => op(Kind::Addr, at, 0, 0),
        2 => op(Kind::Ctx, context, 0, 0),
        _ => op(Kind::AddrCtx, at, context, 0),
    }
}

/// A level-two word: none, or one of two frames, own or global, with XN clear or set.
fn second_of_a_page(random: &mut Random) -> u32 {
    let frame = *random.pick(&[2, 3]);
    match random.below(5) {
        0 => 0,
        _ => frame << 12 | 0x032 | (random.word() & (NG_PAGE | XN_SMALL)),
    }
}

/// Two level-two words, which may differ in XN alone.
pub(crate) fn two_of_a_page(random: &mut Random) -> [u32; 2] {
    let first = second_of_a_page(random);
    let anew = match random.below(4) {
        0 => first ^ XN_SMALL,
        _ => second_of_a_page(random),
    };
    [first, anew]
}

/// Two level-one words that map a MiB, which may differ in XN alone, in the domain alone, or for
/// this page of it in whether a section maps it.
pub(crate) fn two_of_a_mib(random: &mut Random, page: u32) -> [u32; 2] {
    let first = mib(random);
    let ng = if page.is_multiple_of(2) {
        NG_SECTION
    } else {
        0
    };
    let anew = match random.below(8) {
        0..=1 => first ^ XN_SECTION,
        2..=3 => first ^ 1 << (5 + random.below(4)),
        4..=5 if first & 3 == 1 => SECTION | ng | first & DOMAIN,
        4..=5 => EQUAL_PAGES | 1 | first & DOMAIN,
        _ => mib(random),
    };
    [first, anew]
}

/// A page mapped and mapped anew, then read or fetched from: between these steps the context may
/// change, and the page, a context or both may be flushed. Page 2 by its level-two word, or a page
/// of the second MiB by its level-one word.
fn turn(random: &mut Random, contexts: u32) -> Vec<Operation> {
    let (page, at, words) = if random.one_in(2) {
        let at = *random.pick(&[0x408, 0x408, 0x1408]);
        (2, at, two_of_a_page(random))
    } else {
        let page = 256 + random.below(2) as u32;
        let at = 4 + *random.pick(&ROOTS);
        (page, at, two_of_a_mib(random, page))
    };
    let [first, anew] = words.map(|word| op(Kind::Write, at, 4, word));
    let last = if random.one_in(2) {
        op(Kind::Fetch, page << 12, 0, 0)
    } else {
        op(Kind::Read, page << 12, 4, 0)
    };
    let mut list = Vec::new();
    for (step, o) in [first, anew, last].into_iter().enumerate() {
        if step > 0 && random.one_in(2) {
            let context = random.below(u64::from(contexts)) as u32;
            list.push(flush(random, page << 12, context));
        }
        if random.one_in(2) {
            let context = random.below(u64::from(contexts)) as u32;
            list.push(op(Kind::Asid, context, 0, 0));
        }
        list.push(o);
    }
    list
}

/// An access to a word, by a read, a write or a fetch.
pub(crate) fn access(random: &mut Random, at: u32) -> Operation {
    match random.below(3) {
        0 => op(Kind::Read, at, 4, 0),
        1 => op(Kind::Write, at, 4, random.word()),
        _ => op(Kind::Fetch, at, 0, 0),
    }
}

/// The second MiB mapped in a domain, by a section with or without rights or by a table, the
/// domain's field set, and a page of the MiB accessed, in kernel or in user mode. Mostly the page
/// is flushed after the store, and often all fields are 1 at the end.
fn opened_or_closed(random: &mut Random) -> Vec<Operation> {
    let (page, domain) = (256 + random.below(2) as u32, domain(random));
    let rights = if random.one_in(3) { 0xC00 } else { 0 };
    let word = in_domain(mib(random) & !rights, domain);
    let field = *random.pick(&[0, 0, 1, 3, 3]);
    let domains = with_field(domains(random), domain, field);
    // In the middle of a frame of tables, where few lists look.
    let at = page << 12 | 0x800 | (random.word() & 0x3FC);
    let mut list = vec![op(Kind::Write, 4 + *random.pick(&ROOTS), 4, word)];
    if !random.one_in(4) {
        list.push(op(Kind::Addr, at, 0, 0));
    }
    list.push(op(Kind::Domain, domains, 0, 0));
    if random.one_in(2) {
        let [user, kernel] = [1, 0].map(|mode| op(Kind::Mode, mode, 0, 0));
        list.extend([user, access(random, at), kernel]);
    } else {
        list.push(access(random, at));
    }
    if random.one_in(2) {
        list.push(op(Kind::Domain, CLIENTS, 0, 0));
    }
    list
}

/// A switch through context 0: a root is set there, and mostly a context follows. Now and then the
/// root is tried under the context that is there.
fn switch(random: &mut Random, contexts: u32) -> Vec<Operation> {
    let mut list = Vec::new();
    if !random.one_in(5) {
        list.push(op(Kind::Asid, 0, 0, 0));
    }
    list.push(op(Kind::Root, *random.pick(&ROOTS), 0, 0));
    if !random.one_in(3) {
        let context = random.below(u64::from(contexts)) as u32;
        list.push(op(Kind::Asid, context, 0, 0));
    }
    list
}

/// At least this many operations, with pages that turn, domains opened and closed, roots switched,
/// and stores that are nearly quiet among them.
pub fn operations(random: &mut Random, contexts: u32, memory: u32, least: u64) -> Vec<Operation> {
    let mut list = Vec::new();
    while (list.len() as u64) < least {
        match random.below(24) {
            0..=2 => list.extend(turn(random, contexts)),
            3 => list.extend(opened_or_closed(random)),
            4 => list.extend(switch(random, contexts)),
            5 => list.extend(nearly_quiet(random, contexts, memory)),
            _ => list.push(operation(random, contexts, memory)),
        }
    }
    list
}

/// The same operation with something wrong now and then: sizes, addresses, values, contexts, roots,
/// modes, domain registers.
pub fn damaged(random: &mut Random, contexts: u32, mut o: Operation) -> Operation {
    match random.below(12) {
        0 => o.a = random.word(),
        1 => o.b = *random.pick(&[0, 3, 5, 8, contexts, contexts + 1, u32::MAX]),
        2 => o.c = random.word(),
        3 => o.a = *random.pick(&[0x3F_FFFF, 0x40_0000, contexts, 1, 2, 0x40, u32::MAX]),
        4 if o.kind == Kind::Fetch => o.a = *random.pick(&[0x3F_FFFC, 0x40_0000, 0x40_0001]),
        // Behind all memory.
        4..=5 if o.kind == Kind::Root => o.a = MOST,
        4..=5 if o.kind == Kind::Domain => o.a = with_reserved(random, o.a),
        _ => (),
    }
    o
}

/// The line of an operation.
fn line(o: Operation) -> String {
    let name = KINDS[o.kind as usize].1;
    format!("{name},{:x},{:x},{:x}\n", o.a, o.b, o.c)
}

/// A list of operations as text.
pub fn text(operations: &[Operation]) -> Vec<u8> {
    let mut list = String::from("op,a,b,c\n");
    for o in operations {
        list.push_str(&line(*o));
    }
    list.into_bytes()
}

/// Names that are nearly that of an operation.
const NEAR_NAMES: [&str; 12] = [
    "fetc", "fetchx", "Fetch", " fetch", "etch", "fetch\0", "domai", "domains", "Domain",
    " domain", "omain", "domain\0",
];

/// Puts such a name in place of one in a list, behind the line of names.
fn rename(random: &mut Random, list: &mut Vec<u8>) {
    let starts: Vec<usize> = (1..list.len()).filter(|i| list[i - 1] == b'\n').collect();
    if starts.is_empty() {
        return;
    }
    let line = &list[*random.pick(&starts)..];
    let start = list.len() - line.len();
    let name = line.iter().take_while(|b| **b != b',').count();
    list.splice(start..start + name, random.pick(&NEAR_NAMES).bytes());
}

/// Damages a text at a byte: changes it, puts another before it, takes it away, or ends the text
/// before it. A way of 5 or more leaves the text as it is.
pub fn damage(random: &mut Random, bytes: &mut Vec<u8>, at: usize, way: u64) {
    match way {
        0 => bytes[at] = random.word() as u8,
        1 => bytes[at] = *random.pick(b",\n0Aafgx-+ "),
        2 => bytes.insert(at, *random.pick(b",\n0Aaf1")),
        3 => bytes.truncate(at),
        4 => drop(bytes.remove(at)),
        _ => (),
    }
}

/// An operation with a field that it does not use, which is not 0; those before it that it does not
/// use are 0.
fn with_unused(random: &mut Random) -> Operation {
    let unused: Vec<(Kind, usize, usize)> = KINDS
        .iter()
        .flat_map(|&(kind, _, used)| (used..3).map(move |field| (kind, used, field)))
        .collect();
    let &(kind, used, field) = random.pick(&unused);
    let any = random.word();
    let mut fields = [0; 3];
    for value in &mut fields[..used] {
        *value = *random.pick(&[0, 1, 4, 0x1000]);
    }
    fields[field] = *random.pick(&[1, 2, 4, 7, 0x1000, 1 << 31, u32::MAX, any.max(1)]);
    if random.one_in(4) {
        fields[field + 1..].fill(any);
    }
    let [a, b, c] = fields;
    op(kind, a, b, c)
}

/// Puts the line of such an operation into a list: often at its end, else before any of its lines
/// behind the names.
fn insert_unused(random: &mut Random, list: &mut Vec<u8>) {
    let starts: Vec<usize> = (1..=list.len()).filter(|i| list[i - 1] == b'\n').collect();
    let at = if random.one_in(2) {
        list.len()
    } else {
        *random.pick(&starts)
    };
    list.splice(at..at, line(with_unused(random)).bytes());
}

/// A list for the program, which has 8 contexts, and sometimes something wrong with its bytes.
pub fn list(random: &mut Random, memory: u32) -> Vec<u8> {
    let length = random.below(120);
    let mut list = operations(random, 8, memory, length);
    for o in &mut list {
        *o = damaged(random, 8, *o);
        // Unused fields are 0 in the text of most lists.
        let (_, _, used) = KINDS[o.kind as usize];
        let mut fields = [o.a, o.b, o.c];
        if !random.one_in(60) {
            fields[used..].fill(0);
        }
        [o.a, o.b, o.c] = fields;
    }
    let mut bytes = text(&list);
    // The line of names has 9 bytes.
    let within = if random.one_in(6) { 9 } else { bytes.len() };
    let at = random.below(within as u64) as usize;
    match random.below(20) {
        5 => bytes.resize(65_537 + random.below(3) as usize, b'\n'),
        6 => rename(random, &mut bytes),
        7..=13 => insert_unused(random, &mut bytes),
        way => damage(random, &mut bytes, at, way),
    }
    bytes
}

/// An image file for the program: missing, cut off or too long now and then.
pub fn image_file(random: &mut Random) -> Option<Vec<u8>> {
    let mut image = image(random);
    match random.below(30) {
        0 => return None,
        1 => image.truncate(random.below(9000) as usize),
        2 => image.resize(32_769, 0),
        3 => image.resize(32_768, 0),
        _ => (),
    }
    Some(image)
}
