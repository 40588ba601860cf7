//! Reading a map: two levels of descriptors in byte memory.
use std::ops::RangeInclusive;

/// What a 4 KiB page maps to.
#[derive(Clone, Copy, PartialEq, Eq, PartialOrd, Ord, Debug)]
pub struct Entry {
    /// The 20-bit number of the frame.
    pub frame: u32,
    /// AP[2:0].
    pub ap: u32,
    /// Whether a section maps it, and not a page.
    pub section: bool,
    /// Whether nG is clear, so that it serves every context.
    pub global: bool,
    /// Whether XN is set, so that nothing is fetched through it.
    pub xn: bool,
    /// The domain, 0 to 15: that of the level-one word, for a page of the one that points to its
    /// table.
    pub domain: u32,
}

/// Why an operation carried out gave no value: a short-descriptor fault status code.
pub type Fault = u32;

/// The status codes, in the order in which an access meets them.
pub mod fault {
    pub const ALIGNMENT: u32 = 0x1;
    pub const WALK_OUTSIDE_FIRST: u32 = 0xC;
    pub const UNMAPPED_FIRST: u32 = 0x5;
    pub const WALK_OUTSIDE_SECOND: u32 = 0xE;
    pub const UNMAPPED_SECOND: u32 = 0x7;
    pub const DOMAIN_SECTION: u32 = 0x9;
    pub const DOMAIN_PAGE: u32 = 0xB;
    pub const PERMISSION_SECTION: u32 = 0xD;
    pub const PERMISSION_PAGE: u32 = 0xF;
    pub const ACCESS_OUTSIDE: u32 = 0x8;

    /// Those of a walk.
    pub const OF_WALKS: [u32; 4] = [
        WALK_OUTSIDE_FIRST,
        UNMAPPED_FIRST,
        WALK_OUTSIDE_SECOND,
        UNMAPPED_SECOND,
    ];

    /// Those of the rest of an access.
    pub const OF_ACCESSES: [u32; 6] = [
        ALIGNMENT,
        DOMAIN_SECTION,
        DOMAIN_PAGE,
        PERMISSION_SECTION,
        PERMISSION_PAGE,
        ACCESS_OUTSIDE,
    ];
}

/// The bits of a word, the highest first as the rules write them.
fn bits(word: u32, range: RangeInclusive<u32>) -> u32 {
    let (low, high) = (*range.start(), *range.end());
    let wide = u64::from(word) >> low;
    (wide & ((1 << (high - low + 1)) - 1)) as u32
}

/// Whether a bit of a word is set.
fn bit(word: u32, n: u32) -> bool {
    bits(word, n..=n) == 1
}

/// The little-endian number of `size` bytes at a physical address, if they all lie in memory.
pub fn number(memory: &[u8], at: u64, size: usize) -> Option<u32> {
    let at = usize::try_from(at).ok()?;
    let bytes = memory.get(at..at.checked_add(size)?)?;
    Some(bytes.iter().rev().fold(0, |n, b| n << 8 | u32::from(*b)))
}

/// The walk of a virtual address below 0x400000.
pub fn walk(memory: &[u8], root: u32, address: u32) -> Result<Entry, Fault> {
    let at = u64::from(root) + 4 * u64::from(address / 0x10_0000);
    let first = number(memory, at, 4).ok_or(fault::WALK_OUTSIDE_FIRST)?;
    let domain = bits(first, 5..=8);
    match bits(first, 0..=1) {
        1 => {
            let table = u64::from(first & 0xFFFF_FC00);
            let at = table + 4 * u64::from(address / 0x1000 % 256);
            let second = number(memory, at, 4).ok_or(fault::WALK_OUTSIDE_SECOND)?;
            page(second, address, domain)
        }
        2 if !bit(first, 18) => {
            let physical = (first & 0xFFF0_0000) | (address & 0x000F_FFFF);
            let ap = bits(first, 15..=15) << 2 | bits(first, 10..=11);
            Ok(Entry {
                frame: physical >> 12,
                ap,
                section: true,
                global: !bit(first, 17),
                xn: bit(first, 4),
                domain,
            })
        }
        _ => Err(fault::UNMAPPED_FIRST),
    }
}

/// What a level-two word maps, by a table of this domain.
fn page(second: u32, address: u32, domain: u32) -> Result<Entry, Fault> {
    let (physical, xn) = match bits(second, 0..=1) {
        0 => return Err(fault::UNMAPPED_SECOND),
        1 => ((second & 0xFFFF_0000) | (address & 0xFFFF), bit(second, 15)),
        _ => ((second & 0xFFFF_F000) | (address & 0xFFF), bit(second, 0)),
    };
    let ap = bits(second, 9..=9) << 2 | bits(second, 4..=5);
    Ok(Entry {
        frame: physical >> 12,
        ap,
        section: false,
        global: !bit(second, 11),
        xn,
        domain,
    })
}

/// The track word of one entry.
pub fn word(entry: Entry) -> u32 {
    let flag = |set: bool, n: u32| u32::from(set) << n;
    let flags = flag(entry.section, 8) | flag(entry.global, 7) | flag(entry.xn, 6);
    entry.frame << 12 | entry.ap << 9 | flags | entry.domain << 2 | 2
}

/// The entry that a word is for, if it is the track word of one.
pub fn entry_of(found: u32) -> Option<Entry> {
    let entry = Entry {
        frame: bits(found, 12..=31),
        ap: bits(found, 9..=11),
        section: bit(found, 8),
        global: bit(found, 7),
        xn: bit(found, 6),
        domain: bits(found, 2..=5),
    };
    (word(entry) == found).then_some(entry)
}

/// The walk as the C function answers it.
pub fn single_walk(memory: &[u8], root: u32, address: u32) -> u64 {
    let refused = |n: u64| 0x2_0000_0000 + n;
    if memory.is_empty() || !memory.len().is_multiple_of(4096) || memory.len() > 16_777_216 {
        return refused(13);
    }
    if !root.is_multiple_of(0x80) {
        return refused(10);
    }
    if address >= 0x40_0000 {
        return refused(8);
    }
    match walk(memory, root, address) {
        Ok(entry) => u64::from(word(entry)),
        Err(fault) => 0x1_0000_0000 + u64::from(fault),
    }
}
