//! The C walk against the model's.
use compare::{cases, keep, Tally};
use model::generate;
use model::random::Random;
use model::walk::{fault, single_walk};

/// The bits of an entry of a section, of a global one, and of one with XN set.
const SECTION: u32 = 1 << 8;
const GLOBAL: u32 = 1 << 7;
const XN: u32 = 1 << 6;

/// The domain of an entry.
fn domain(entry: u32) -> u32 {
    entry >> 2 & 0xF
}

/// An image of a length that fits or does not, with descriptors that lead in and out of memory.
fn image(random: &mut Random) -> Vec<u8> {
    let mut image = generate::image(random);
    match random.below(12) {
        0 => image.truncate(random.below(9000) as usize),
        1 => image.clear(),
        _ => (),
    }
    image
}

/// A root: mostly one that lists use.
fn root(random: &mut Random, image: &[u8]) -> u32 {
    match random.below(8) {
        0 => random.word(),
        1 => random.word() & !0x7F,
        2 => image.len() as u32 & !0x7F,
        _ => *random.pick(&generate::ROOTS),
    }
}

/// An address: mostly one of the window.
fn address(random: &mut Random) -> u32 {
    match random.below(8) {
        0 => random.word(),
        1 => *random.pick(&[0x3F_FFFF, 0x40_0000, 0xF_FFFF, 0x10_0000]),
        _ => random.word() & 0x3F_FFFF,
    }
}

/// The code's answer, which has to be the model's.
fn walked(case: u64, image: &[u8], root: u32, address: u32) -> u64 {
    let expected = single_walk(image, root, address);
    let found = calls::walk(image, root, address);
    if expected != found {
        let folder = keep("walk", case, &[("image.bin", image)]);
        panic!(
            "root {root:#x}, address {address:#x}: the model {expected:#x}, the code {found:#x}; \
             the image is in {}",
            folder.display()
        );
    }
    found
}

#[test]
fn walks() {
    let mut seen = Tally::new();
    let mut domains = Tally::new();
    for (case, mut random) in cases(3_000) {
        let image = image(&mut random);
        for _ in 0..20 {
            let (root, address) = (root(&mut random, &image), address(&mut random));
            let found = walked(case, &image, root, address);
            let number = found as u32;
            if found >> 32 == 0 {
                seen.add((0, number & (SECTION | GLOBAL | XN)));
                domains.add((number & SECTION, domain(number)));
            } else {
                seen.add((found >> 32, number));
            }
        }
    }
    let faults = fault::OF_WALKS.map(|n| (1, n));
    let refusals = [13, 10, 8].map(|n| (2, n));
    let entries = [0, SECTION, GLOBAL, SECTION | GLOBAL].map(|bits| [(0, bits), (0, bits | XN)]);
    let all = entries.concat().into_iter().chain(faults).chain(refusals);
    seen.must_have("walks", all);
    let each = (0..16).flat_map(|domain| [(0, domain), (SECTION, domain)]);
    domains.must_have("sections and pages, by domain", each);
}

/// XN is bit 4 of a section, bit 15 of a large page, bit 0 of a small one, and no other: each bit of a
/// word is changed by itself, of those that leave its kind.
#[test]
fn xn_of_each_kind_of_descriptor() {
    // Where the word stands and what it maps, the word, its XN, and the bits that tell its kind.
    let kinds = [
        (0x4, 0x10_0000, 0x0030_0C02_u32, 4, 1 << 18 | 3),
        (0x400, 0x0, 0x0002_0031, 15, 3),
        (0x400, 0x0, 0x0000_3032, 0, 2),
    ];
    for (at, address, clear, xn, kind) in kinds {
        for word in [clear, clear | 1 << xn] {
            for bit in (0..32).filter(|bit| kind & 1 << bit == 0) {
                let changed = word ^ 1 << bit;
                let mut image = generate::image_a();
                image[at..at + 4].copy_from_slice(&changed.to_le_bytes());
                let found = calls::walk(&image, 0, address);
                assert_eq!(found, single_walk(&image, 0, address), "{changed:x}");
                let set = (found >> 32, found as u32 & XN != 0);
                assert_eq!(set, (0, changed >> xn & 1 == 1), "{changed:x}");
            }
        }
    }
}

/// The domain is bits 8..5 of a section, and for a page of the word that points to its table, and
/// no other bits: each bit of a word is changed by itself, of those that leave what it maps.
#[test]
fn domain_of_each_kind_of_descriptor() {
    // Where the word stands, whether at level one, what it maps, the word, and the bits that stay.
    let kinds = [
        (0x4, true, 0x10_0000, 0x0030_0C02_u32, 1 << 18 | 3),
        (0x0, true, 0x0, 0x0000_0401, 0xFFFF_FC03_u32),
        (0x400, false, 0x0, 0x0002_0031, 3),
        (0x400, false, 0x0, 0x0000_3032, 2),
    ];
    for (at, first, address, clear, stay) in kinds {
        for of_word in 0..16 {
            for bit in (0..32).filter(|bit| stay & 1 << bit == 0) {
                let changed = (clear & !0x1E0 | of_word << 5) ^ 1 << bit;
                let mut image = generate::image_a();
                image[at..at + 4].copy_from_slice(&changed.to_le_bytes());
                let found = walked(0, &image, 0, address);
                let expected = if first { changed >> 5 & 0xF } else { 0 };
                let told = (found >> 32, domain(found as u32));
                assert_eq!(told, (0, expected), "{changed:x}");
            }
        }
    }
}
