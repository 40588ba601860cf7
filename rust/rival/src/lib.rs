//! A straightforward program that reports what `replay` does: it re-reads every page after each
//! operation. How the rows are noted is a parameter: page by page, as anyone would write it first, or
//! MiB by MiB, which is the idea of `noting`. The benchmarks time them side by side.
use std::fs;
use std::io::{self, Read, Write};

const NAMES: [(&str, usize); 11] = [
    ("read", 2),
    ("write", 3),
    ("root", 1),
    ("asid", 1),
    ("mode", 1),
    ("all", 0),
    ("addr", 1),
    ("ctx", 1),
    ("addrctx", 2),
    ("fetch", 1),
    ("domain", 1),
];

/// The places of `fetch` and `domain` among them.
const FETCH: usize = 9;
const DOMAIN: usize = 10;

/// What may be done by AP and mode: 0 nothing, 1 reading, 2 reading and writing.
const RIGHTS: [[u32; 2]; 8] = [
    [0, 0],
    [2, 0],
    [2, 1],
    [2, 2],
    [0, 0],
    [1, 0],
    [1, 1],
    [1, 1],
];

enum Answer {
    Ok(u32),
    Fault(u32),
    Refused(u32),
}

/// How the row of a context and the global row are noted, by memory and the root.
pub type Note = fn(&[u8], u32, &mut [u32], &mut [u32]);

/// The contexts, and the words of their rows, behind which the global row stands.
const CONTEXTS: u32 = 8;
const OWN: usize = CONTEXTS as usize * 1024;

struct Machine {
    memory: Vec<u8>,
    track: Vec<u32>,
    root: u32,
    context: u32,
    mode: u32,
    domains: u32,
    note: Note,
}

fn load(memory: &[u8], at: usize) -> Option<u32> {
    let bytes = memory.get(at..at + 4)?;
    Some(u32::from_le_bytes([bytes[0], bytes[1], bytes[2], bytes[3]]))
}

/// The bit of a track word that tells an entry of a section.
const SECTION: u32 = 1 << 8;

/// The bit of a track word that tells a global entry.
const GLOBAL: u32 = 1 << 7;

/// The bit of a track word that tells an entry through which nothing is fetched.
const XN: u32 = 1 << 6;

/// The bits that are alike in all words for one entry in a row.
const OF_ROW: u32 = GLOBAL | 3;

/// The domain of a level-one word, in its place in a track word.
fn domain(first: u32) -> u32 {
    (first >> 5 & 0xF) << 2
}

/// Whether a level-one word points to a table.
fn is_table(first: u32) -> bool {
    first & 3 == 1
}

/// Whether a level-one word is a section.
fn is_section(first: u32) -> bool {
    first & 3 == 2 && first & 1 << 18 == 0
}

/// The track word of a section's page.
fn section(first: u32, page: usize) -> u32 {
    let ap = first >> 13 & 4 | first >> 10 & 3;
    let global = !first >> 10 & GLOBAL;
    let rest = ap << 9 | SECTION | global | first << 2 & XN | domain(first) | 2;
    first & 0xFFF0_0000 | (page as u32 & 0xFF) << 12 | rest
}

/// The track word of a page by the table of a level-one word, or its fault.
fn by_table(memory: &[u8], first: u32, page: usize) -> Result<u32, u32> {
    let table = (first & !0x3FF) as usize;
    let second = load(memory, table + 4 * (page & 0xFF)).ok_or(0xE_u32)?;
    let ap = second >> 7 & 4 | second >> 4 & 3;
    let rest = ap << 9 | !second >> 4 & GLOBAL | domain(first) | 2;
    match second & 3 {
        0 => Err(7),
        1 => Ok(second & 0xFFFF_0000 | (page as u32 & 0xF) << 12 | second >> 9 & XN | rest),
        _ => Ok(second & 0xFFFF_F000 | second << 6 & XN | rest),
    }
}

/// The track word of a page, or its fault.
fn walk(memory: &[u8], root: u32, page: usize) -> Result<u32, u32> {
    let first = load(memory, root as usize + 4 * (page >> 8)).ok_or(0xC_u32)?;
    if is_table(first) {
        return by_table(memory, first, page);
    }
    if is_section(first) {
        return Ok(section(first, page));
    }
    Err(5)
}

/// Adds an entry to a page's set, in the row to which it belongs. A word that is not for one entry
/// of that row stays.
fn add(own: &mut u32, global: &mut u32, entry: u32) {
    let word = if entry & GLOBAL == 0 { own } else { global };
    if *word == 0 {
        *word = entry;
    } else if *word != entry && *word & OF_ROW == entry & OF_ROW {
        *word = 1;
    }
}

/// Notes the rows page by page: each page is walked from level one.
pub fn by_page(memory: &[u8], root: u32, own: &mut [u32], global: &mut [u32]) {
    for (page, (own, global)) in own.iter_mut().zip(global).enumerate() {
        if let Ok(entry) = walk(memory, root, page) {
            add(own, global, entry);
        }
    }
}

/// Notes the rows MiB by MiB: the level-one word is read once for the 256 pages that share it.
pub fn by_mib(memory: &[u8], root: u32, own: &mut [u32], global: &mut [u32]) {
    let mibs = own.chunks_mut(256).zip(global.chunks_mut(256));
    for (mib, (own, global)) in mibs.enumerate() {
        let Some(first) = load(memory, root as usize + 4 * mib) else {
            continue;
        };
        let words = own.iter_mut().zip(global).enumerate();
        if is_table(first) {
            for (page, (own, global)) in words {
                if let Ok(entry) = by_table(memory, first, page) {
                    add(own, global, entry);
                }
            }
        } else if is_section(first) {
            for (page, (own, global)) in words {
                add(own, global, section(first, page));
            }
        }
    }
}

/// Whether a field of a domain register is 2: its high bit is set and its low one is clear.
fn has_reserved(domains: u32) -> bool {
    domains >> 1 & !domains & 0x5555_5555 != 0
}

impl Machine {
    fn noting(&mut self) {
        let (contexts, global) = self.track.split_at_mut(OWN);
        let own = &mut contexts[self.context as usize * 1024..][..1024];
        (self.note)(&self.memory, self.root, own, global);
    }

    fn refused(&self, kind: usize, [a, b, c]: [u32; 3]) -> Option<u32> {
        let sized = kind < 2;
        let access = sized || kind == FETCH;
        if sized && b != 1 && b != 2 && b != 4 {
            return Some(7);
        }
        if (access || kind == 6 || kind == 8) && a >= 0x40_0000 {
            return Some(8);
        }
        if kind == 1 && (b == 1 && c > 0xFF || b == 2 && c > 0xFFFF) {
            return Some(9);
        }
        if kind == 2 && !a.is_multiple_of(0x80) {
            return Some(10);
        }
        if (kind == 3 || kind == 7) && a >= CONTEXTS || kind == 8 && b >= CONTEXTS {
            return Some(11);
        }
        if kind == 4 && a > 1 {
            return Some(12);
        }
        if kind == DOMAIN && has_reserved(a) {
            return Some(17);
        }
        if self.mode == 1 && !access && kind != 4 {
            return Some(15);
        }
        match (kind, self.context) {
            (2, 1..) => Some(20),
            _ => None,
        }
    }

    /// The domain or permission fault of an access through an entry, if it has one.
    fn stopped(&self, kind: usize, entry: u32) -> Option<u32> {
        let from_section = entry & SECTION != 0;
        let domain = entry >> 2 & 0xF;
        match self.domains >> (2 * domain) & 3 {
            3 => None,
            1 => {
                let rights = RIGHTS[(entry >> 9 & 7) as usize][self.mode as usize];
                let needs = 1 + u32::from(kind == 1);
                let stopped = rights < needs || kind == FETCH && entry & XN != 0;
                stopped.then_some(if from_section { 0xD } else { 0xF })
            }
            _ => Some(if from_section { 0x9 } else { 0xB }),
        }
    }

    fn access(&mut self, kind: usize, [a, size, value]: [u32; 3]) -> Answer {
        if !a.is_multiple_of(size) {
            return Answer::Fault(1);
        }
        let page = (a >> 12) as usize;
        let outcome = walk(&self.memory, self.root, page);
        let own = self.track[self.context as usize * 1024 + page];
        let global = self.track[OWN + page];
        let stale = |word| word != 0 && outcome != Ok(word);
        if stale(own) || stale(global) {
            return Answer::Refused(16);
        }
        let entry = match outcome {
            Ok(entry) => entry,
            Err(fault) => return Answer::Fault(fault),
        };
        if let Some(fault) = self.stopped(kind, entry) {
            return Answer::Fault(fault);
        }
        let at = (entry >> 12) as usize * 4096 + (a & 0xFFF) as usize;
        let Some(bytes) = self.memory.get_mut(at..at + size as usize) else {
            return Answer::Fault(8);
        };
        if kind == 1 {
            bytes.copy_from_slice(&value.to_le_bytes()[..size as usize]);
            return Answer::Ok(0);
        }
        let mut word = [0; 4];
        word[..size as usize].copy_from_slice(bytes);
        Answer::Ok(u32::from_le_bytes(word))
    }

    fn step(&mut self, kind: usize, fields: [u32; 3]) -> Answer {
        if let Some(number) = self.refused(kind, fields) {
            return Answer::Refused(number);
        }
        let [a, b, _] = fields;
        let mut answer = Answer::Ok(0);
        match kind {
            0 | 1 => answer = self.access(kind, fields),
            FETCH => answer = self.access(kind, [a, 4, 0]),
            2 => self.root = a,
            3 => self.context = a,
            4 => self.mode = a,
            DOMAIN => self.domains = a,
            5 => self.track.fill(0),
            6 => {
                let page = (a >> 12) as usize;
                self.track
                    .iter_mut()
                    .skip(page)
                    .step_by(1024)
                    .for_each(|w| *w = 0);
            }
            7 => self.track[a as usize * 1024..][..1024].fill(0),
            _ => {
                let page = (a >> 12) as usize;
                self.track[b as usize * 1024 + page] = 0;
                self.track[OWN + page] = 0;
            }
        }
        if !matches!(answer, Answer::Refused(_)) {
            self.noting();
        }
        answer
    }
}

fn value(text: &[u8]) -> Option<u32> {
    if text.is_empty() || text.len() > 8 || text.len() > 1 && text[0] == b'0' {
        return None;
    }
    text.iter().try_fold(0, |n, b| {
        let digit = match b {
            b'0'..=b'9' => b - b'0',
            b'a'..=b'f' => b - b'a' + 10,
            _ => return None,
        };
        Some(n << 4 | u32::from(digit))
    })
}

fn read_line(text: &[u8]) -> Result<(usize, [u32; 3]), u32> {
    let mut fields = text.split(|b| *b == b',');
    let mut next = || fields.next().ok_or(3_u32);
    let (name, a, b, c) = (next()?, next()?, next()?, next()?);
    if fields.next().is_some() {
        return Err(3);
    }
    let (Some(a), Some(b), Some(c)) = (value(a), value(b), value(c)) else {
        return Err(4);
    };
    let kind = NAMES.iter().position(|(n, _)| n.as_bytes() == name);
    let kind = kind.ok_or(5_u32)?;
    let fields = [a, b, c];
    if fields[NAMES[kind].1..].iter().any(|field| *field != 0) {
        return Err(6);
    }
    Ok((kind, fields))
}

/// Carries out the lines of a list and adds their lines to the report.
fn carry_out(machine: &mut Machine, mut rest: &[u8], out: &mut Vec<u8>) {
    let mut line = 2;
    while !rest.is_empty() {
        let end = rest.iter().position(|b| *b == b'\n');
        let read = end.ok_or(3).and_then(|end| read_line(&rest[..end]));
        let (kind, fields) = match read {
            Ok(read) => read,
            Err(number) => {
                out.extend(format!("{line:x},-,refused,{number:x}\n").bytes());
                break;
            }
        };
        let (word, number) = match machine.step(kind, fields) {
            Answer::Ok(n) => ("ok", n),
            Answer::Fault(n) => ("fault", n),
            Answer::Refused(n) => ("refused", n),
        };
        let name = NAMES[kind].0;
        out.extend(format!("{line:x},{name},{word},{number:x}\n").bytes());
        rest = &rest[end.map_or(rest.len(), |end| end + 1)..];
        line += 1;
    }
}

/// The report of a list on the bytes of an image file.
pub fn report(mut image: Vec<u8>, list: &[u8], note: Note) -> Vec<u8> {
    let mut out = Vec::from("line,op,answer,value\n");
    if image.len() > 32_768 {
        image.clear();
    }
    if image.is_empty() || !image.len().is_multiple_of(4096) {
        out.extend(b"0,start,refused,d\n");
        return out;
    }
    if list.len() > 65_536 {
        out.extend(b"1,-,refused,1\n");
        return out;
    }
    let Some(lines) = list.strip_prefix(b"op,a,b,c\n") else {
        out.extend(b"1,-,refused,2\n");
        return out;
    };
    let mut machine = Machine {
        memory: image,
        track: vec![0; OWN + 1024],
        root: 0,
        context: 0,
        mode: 0,
        domains: 0x5555_5555,
        note,
    };
    machine.noting();
    carry_out(&mut machine, lines, &mut out);
    out
}

/// Reads a list from standard input and memory from image.bin, and prints the report.
pub fn run(note: Note) -> io::Result<()> {
    let mut list = Vec::new();
    io::stdin().take(65_537).read_to_end(&mut list)?;
    let image = fs::read("image.bin").unwrap_or_default();
    io::stdout().write_all(&report(image, &list, note))
}
