//! Images of every length, lines of images and of what would be longer than one, and lines with
//! something wrong: bytes, spelling, shape, order, addresses, zero words.
use crate::generate::damage;
use crate::lines::{self, NAMES};
use crate::random::Random;
use std::collections::BTreeMap;

/// The lines of image A.
pub const LINES_OF_A: &str =
    "at,word\n0,401\n400,812\n404,3832\n3000,12345678\n4000,11223344\n7ffc,0\n";

/// Which words of an image are not zero; the last one may be, whatever the spread.
#[derive(Clone, Copy, PartialEq, Eq, Debug)]
pub enum Spread {
    LastAlone,
    First,
    Few,
    Neighbours,
    Most,
}

pub const SPREADS: [Spread; 5] = [
    Spread::LastAlone,
    Spread::First,
    Spread::Few,
    Spread::Neighbours,
    Spread::Most,
];

/// A word that is not zero, of any number of digits; some have one byte alone that is not zero.
fn word(random: &mut Random) -> u32 {
    let word = match random.below(3) {
        0 => random.word(),
        1 => random.word() >> random.below(32),
        _ => (random.word() & 0xFF) << (8 * random.below(4)),
    };
    word.max(1)
}

/// Addresses up to this one, of words that are not zero.
fn addresses(random: &mut Random, last: u32, spread: Spread) -> Vec<u32> {
    let any = |random: &mut Random| 4 * random.below(u64::from(last / 4) + 1) as u32;
    match spread {
        Spread::LastAlone => Vec::new(),
        Spread::First => vec![0],
        Spread::Few => (0..random.below(30)).map(|_| any(random)).collect(),
        Spread::Neighbours => {
            let first = any(random);
            (first..last).step_by(4).take(20).collect()
        }
        Spread::Most => {
            let all = (0..last.min(0x8000)).step_by(4);
            all.filter(|_| !random.one_in(8)).collect()
        }
    }
}

/// The words that have lines, by their addresses, if the last one is at this address. That one is
/// zero now and then.
fn words(random: &mut Random, last: u32, spread: Spread) -> BTreeMap<u32, u32> {
    let addresses = addresses(random, last, spread).into_iter();
    let mut words: BTreeMap<u32, u32> = addresses.map(|at| (at, word(random))).collect();
    let of_last = if random.one_in(3) { 0 } else { word(random) };
    words.insert(last, of_last);
    words
}

/// An image of this many pages.
pub fn image(random: &mut Random, pages: u32, spread: Spread) -> Vec<u8> {
    let words = words(random, 4096 * pages - 4, spread);
    lines::image(&words).expect("an image has so many pages")
}

/// How many pages an image may have.
fn pages(random: &mut Random) -> u32 {
    1 + random.below(8) as u32
}

/// Lengths that no image has.
const LENGTHS: [usize; 14] = [
    0, 1, 3, 4, 4_092, 4_095, 4_097, 4_100, 5_000, 32_767, 32_769, 36_864, 40_960, 65_536,
];

/// An image file for the program: missing or of another length now and then.
pub fn image_file(random: &mut Random) -> Option<Vec<u8>> {
    let pages = pages(random);
    let spread = *random.pick(&SPREADS);
    let mut image = image(random, pages, spread);
    match random.below(16) {
        0 => return None,
        1 => image.truncate(random.below(image.len() as u64) as usize),
        2..=3 => image.resize(*random.pick(&LENGTHS), random.word() as u8),
        _ => (),
    }
    Some(image)
}

/// The address of a last word: mostly that of an image.
fn last(random: &mut Random) -> u32 {
    match random.below(8) {
        0 => random.word() & !3,
        1 => *random.pick(&[
            0,
            4,
            0xFF8,
            0x1000,
            0x7FF8,
            0x8000,
            0x8FFC,
            0xFFFC,
            0x1_0FFC,
            0x7FFF_FFFC,
            0x8000_0FFC,
            0xFFFF_FFF8,
            0xFFFF_FFFC,
        ]),
        _ => 4096 * pages(random) - 4,
    }
}

/// A place in a row of so many, which is not empty: often the first or the last one.
fn place(random: &mut Random, count: usize) -> usize {
    match random.below(4) {
        0 => 0,
        1 => count - 1,
        _ => random.below(count as u64) as usize,
    }
}

/// Makes something wrong about the values of lines, or leaves a line out.
fn misplace(random: &mut Random, lines: &mut Vec<(u32, u32)>) {
    let i = place(random, lines.len());
    let j = place(random, lines.len());
    let (at, word) = lines[i];
    match random.below(8) {
        0..=1 => lines[i].1 = 0,
        2 => lines[i].0 |= 1 + random.below(3) as u32,
        3 => lines.insert(i, (at, word)),
        4 => lines.swap(i, j),
        5 => lines[i].0 = random.word() & !3,
        6 => lines[i].0 = lines[j].0.wrapping_sub(4),
        _ => drop(lines.remove(i)),
    }
}

/// Makes something wrong about the spelling or the shape of a line, which ends with its newline. Some
/// ways leave it as it was or make it right in another way.
fn respell(random: &mut Random, line: &mut String) {
    let second = line.find(',').map_or(0, |comma| comma + 1);
    let start = *random.pick(&[0, second]);
    let digits = line[start..].find([',', '\n']).unwrap_or(0);
    match random.below(13) {
        0 => line.insert(start, '0'),
        1 => line.make_ascii_uppercase(),
        2 => line.insert_str(start, "0x"),
        3 => line.insert(start, *random.pick(&['+', '-', ' ', ',', '\t', 'g', 'é'])),
        4 => line.insert(line.len() - 1, '\r'),
        5 => line.insert(line.len() - 1, *random.pick(&[',', ' ', '\0', 'f', '0'])),
        6 => line.insert_str(line.len() - 1, ",0"),
        7 => line.replace_range(.., "\n"),
        8 => line.insert(0, '\n'),
        9 => line.insert_str(start, &"f".repeat(1 + random.below(16) as usize)),
        10 => line.insert_str(start, &"1".repeat(random.below(100_000) as usize)),
        11 => line.replace_range(start..start + digits, ""),
        _ => drop(line.pop()),
    }
}

/// The names or the beginning of them, and then bytes of which lines are made.
fn scribbled(random: &mut Random) -> Vec<u8> {
    let names = *random.pick(&[0, 4, 7, 8, 8, 8, 8, 8]);
    let mut bytes = NAMES.as_bytes()[..names].to_vec();
    let most = *random.pick(&[1, 8, 24]);
    for _ in 0..random.below(most) {
        bytes.push(*random.pick(b"0048cff,,,\n\n\n"));
    }
    bytes
}

/// Lines for the program: some of an image, some of what is longer, and most with something wrong.
pub fn input(random: &mut Random) -> Vec<u8> {
    if random.one_in(8) {
        return scribbled(random);
    }
    let (last, spread) = (last(random), *random.pick(&SPREADS));
    let mut values: Vec<(u32, u32)> = words(random, last, spread).into_iter().collect();
    if random.one_in(3) {
        misplace(random, &mut values);
    }
    let rest = values.iter().map(|(at, word)| format!("{at:x},{word:x}\n"));
    let mut lines: Vec<String> = [NAMES.to_string()].into_iter().chain(rest).collect();
    if random.one_in(3) {
        let i = place(random, lines.len());
        respell(random, &mut lines[i]);
    }
    let mut bytes = lines.concat().into_bytes();
    let at = place(random, bytes.len());
    match random.below(16) {
        0 => bytes.push(random.word() as u8),
        way => damage(random, &mut bytes, at, way - 1),
    }
    bytes
}

#[cfg(test)]
mod tests {
    use super::*;
    use crate::lines::{to_image, to_lines};

    /// The lines of a generated image are accepted, and their image is the same.
    #[test]
    fn images_of_each_length_and_spread() {
        for pages in 1..=8 {
            for spread in SPREADS {
                let image = image(&mut Random::new(pages.into()), pages, spread);
                assert_eq!(image.len(), 4096 * pages as usize);
                let lines = to_lines(Some(&image));
                assert!(to_image(&lines) == image, "{pages} pages, {spread:?}");
            }
        }
    }
}
