//! The two ways of noting the rows against each other and against the model's walk, on generated
//! images.
use model::generate;
use model::random::Random;
use model::walk::{walk, word, Entry};
use std::collections::BTreeSet;

/// The bit of a global entry, and of one with XN set.
const GLOBAL: u32 = 0x80;
const XN: u32 = 0x40;

/// The bits that every word for one entry has alike in a row: bit 7, bit 1 set, bit 0 clear.
const ALIKE: u32 = GLOBAL | 3;

/// A word that a row may hold: none, an entry of that row, several entries, or what the page maps
/// to if it belongs there, as it is, with XN the other way, in another domain, or as no entry of
/// the row is.
fn held(random: &mut Random, now: Option<u32>, bit: u32) -> u32 {
    match random.below(7) {
        0 => 0,
        1 => 1,
        2 => now.unwrap_or(0),
        3 => now.map_or(0, |entry| entry ^ XN),
        4 => now.map_or(0, |entry| entry ^ 4 << random.below(4)),
        5 => now.map_or(3, |entry| entry ^ random.pick(&[1, 2, 3, GLOBAL])),
        _ => random.word() & !ALIKE | bit | 2,
    }
}

/// A page's word after the page was noted, by the rules.
fn noted(held: u32, now: Option<u32>) -> u32 {
    match (held, now) {
        (_, None) => held,
        (0, Some(entry)) => entry,
        (_, Some(entry)) if held == entry || held & ALIKE != entry & ALIKE => held,
        _ => 1,
    }
}

/// A row as it is found and as it has to be left.
type Row = (Vec<u32>, Vec<u32>);

/// The row of the global entries, or of a context's own.
fn row(random: &mut Random, now: &[Option<Entry>], global: bool) -> Row {
    let bit = if global { GLOBAL } else { 0 };
    let belongs = |now: &Option<Entry>| now.filter(|e| e.global == global).map(word);
    let found: Vec<u32> = now.iter().map(|n| held(random, belongs(n), bit)).collect();
    let left = found.iter().zip(now).map(|(w, n)| noted(*w, belongs(n)));
    let left = left.collect();
    (found, left)
}

/// Notes the row of a context and the global row, in both ways.
fn note(case: u64, image: &[u8], root: u32, own: &Row, global: &Row) {
    for (name, note) in [
        ("by page", rival::by_page as rival::Note),
        ("by MiB", rival::by_mib),
    ] {
        let (mut found, mut found_global) = (own.0.clone(), global.0.clone());
        note(image, root, &mut found, &mut found_global);
        assert!(found == own.1, "case {case}, {name}: own rows differ");
        let same = found_global == global.1;
        assert!(same, "case {case}, {name}: global rows differ");
    }
}

#[test]
fn rows() {
    let (mut outside, mut both, mut xn) = (0, 0, 0);
    let mut in_domains = BTreeSet::new();
    for case in 0..400 {
        let mut random = Random::new(case);
        let mut image = generate::image(&mut random);
        let root = 0x80 * random.below(8) as u32;
        // Some images end in the middle of a table.
        if random.one_in(4) {
            image.truncate(4 * random.below(0x800) as usize + random.below(4) as usize);
            outside += 1;
        }
        let now: Vec<Option<Entry>> = (0..1024)
            .map(|page| walk(&image, root, page << 12).ok())
            .collect();
        let has = |global| now.iter().flatten().any(|e| e.global == global);
        both += u32::from(has(false) && has(true));
        xn += u32::from(now.iter().flatten().any(|e| e.xn));
        in_domains.extend(now.iter().flatten().map(|e| (e.section, e.domain)));
        let own = row(&mut random, &now, false);
        let global = row(&mut random, &now, true);
        note(case, &image, root, &own, &global);
    }
    assert!(outside > 0, "no image ended in the middle of a table");
    assert!(both > 0, "no image mapped own and global pages");
    assert!(xn > 0, "no image mapped a page with XN set");
    for domain in [0, 1, 8, 15] {
        let both = [false, true].map(|section| in_domains.contains(&(section, domain)));
        assert_eq!(both, [true; 2], "a page and a section in domain {domain}");
    }
}
