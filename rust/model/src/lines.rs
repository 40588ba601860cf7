//! Images as lines and lines as images: a line for each word that is not zero, and one for the last
//! word of the image, whatever it is.
use crate::list::{value, Refusal};
use std::collections::BTreeMap;

/// The line of names, with its newline.
pub const NAMES: &str = "at,word\n";

/// The names are others, or a line has another shape or spelling.
const MISSHAPEN: Refusal = 18;

/// The order, an address that is no multiple of 4, a zero word that bytes follow, or the length.
const MISPLACED: Refusal = 19;

/// A line that is refused, of which the names are 1 and the length is 0, and why.
type Refused = (usize, Refusal);

/// What is printed of a refusal, and nothing else is.
fn told((line, refusal): Refused) -> Vec<u8> {
    format!("{line:x},{refusal:x}\n").into_bytes()
}

/// Whether an image may have this length: that of one to eight pages.
fn is_length(length: u64) -> bool {
    (1..=8).any(|pages| length == 4096 * pages)
}

/// What is printed for an image file: its lines, or the refusal of its length. One that is missing
/// has no bytes.
pub fn to_lines(image: Option<&[u8]>) -> Vec<u8> {
    let image = image.unwrap_or_default();
    if !is_length(image.len() as u64) {
        return told((0, MISPLACED));
    }
    let last = image.len() - 4;
    let mut lines = String::from(NAMES);
    for (n, bytes) in image.chunks(4).enumerate() {
        let word = u32::from_le_bytes(bytes.try_into().expect("four bytes"));
        if word != 0 || 4 * n == last {
            lines.push_str(&format!("{:x},{word:x}\n", 4 * n));
        }
    }
    lines.into_bytes()
}

/// The address and the word of a line, which ends with its newline.
fn pair(line: &[u8]) -> Option<(u32, u32)> {
    let text = std::str::from_utf8(line.strip_suffix(b"\n")?).ok()?;
    let (at, word) = text.split_once(',')?;
    Some((value(at)?, value(word)?))
}

/// The words of the lines by their addresses, or the first line that is refused.
fn words(input: &[u8]) -> Result<BTreeMap<u32, u32>, Refused> {
    let lines: Vec<&[u8]> = input.split_inclusive(|byte| *byte == b'\n').collect();
    if lines.first() != Some(&NAMES.as_bytes()) {
        return Err((1, MISSHAPEN));
    }
    let mut words = BTreeMap::new();
    for (i, line) in lines.iter().enumerate().skip(1) {
        let (at, word) = pair(line).ok_or((i + 1, MISSHAPEN))?;
        let rises = words.last_key_value().is_none_or(|(last, _)| *last < at);
        let followed = i + 1 < lines.len();
        if !rises || !at.is_multiple_of(4) || word == 0 && followed {
            return Err((i + 1, MISPLACED));
        }
        words.insert(at, word);
    }
    Ok(words)
}

/// The image that ends with the last of these words, if it may have that length.
pub fn image(words: &BTreeMap<u32, u32>) -> Option<Vec<u8>> {
    let (last, _) = words.last_key_value()?;
    let length = u64::from(*last) + 4;
    if !is_length(length) {
        return None;
    }
    let mut image = vec![0; length as usize];
    for (at, word) in words {
        let at = *at as usize;
        image[at..at + 4].copy_from_slice(&word.to_le_bytes());
    }
    Some(image)
}

/// What is printed for lines: their image, or a refusal, of which that of the length comes last.
pub fn to_image(input: &[u8]) -> Vec<u8> {
    let made = words(input).and_then(|words| image(&words).ok_or((0, MISPLACED)));
    made.unwrap_or_else(told)
}

#[cfg(test)]
mod tests {
    use super::*;
    use crate::generate::image_a;
    use crate::generate_lines::LINES_OF_A;

    /// What is printed for the names and these lines, of which none is accepted.
    fn refused(lines: &str) -> String {
        let printed = to_image(format!("{NAMES}{lines}").as_bytes());
        String::from_utf8(printed).expect("a refusal is ASCII")
    }

    #[test]
    fn image_a_both_ways() {
        assert_eq!(to_lines(Some(&image_a())), LINES_OF_A.as_bytes());
        assert_eq!(to_image(LINES_OF_A.as_bytes()), image_a());
    }

    #[test]
    fn the_last_word_always_has_its_line() {
        let mut image = vec![0; 4096];
        assert_eq!(to_lines(Some(&image)), b"at,word\nffc,0\n");
        assert_eq!(to_image(b"at,word\nffc,0\n"), image);
        image[4092] = 0x21;
        assert_eq!(to_lines(Some(&image)), b"at,word\nffc,21\n");
        assert_eq!(to_image(b"at,word\nffc,21\n"), image);
        let zeros = vec![0; 32_768];
        assert_eq!(to_lines(Some(&zeros)), b"at,word\n7ffc,0\n");
        assert_eq!(to_image(b"at,word\n7ffc,0\n"), zeros);
    }

    #[test]
    fn the_low_byte_comes_first() {
        let mut image = vec![0; 8192];
        image[..4].copy_from_slice(&[0x78, 0x56, 0x34, 0x12]);
        image[7] = 0xA0;
        image[8188] = 0xFF;
        let lines = b"at,word\n0,12345678\n4,a0000000\n1ffc,ff\n";
        assert_eq!(to_lines(Some(&image)), lines);
        assert_eq!(to_image(lines), image);
    }

    #[test]
    fn lengths_of_images() {
        for length in [
            0, 1, 4, 4092, 4095, 4097, 4100, 8191, 32_767, 32_769, 36_864,
        ] {
            let image = vec![1; length];
            assert_eq!(to_lines(Some(&image)), b"0,13\n", "{length} bytes");
        }
        assert_eq!(to_lines(None), b"0,13\n");
        for (last, length) in [("ffc", 4096), ("1ffc", 8192), ("6ffc", 28_672)] {
            let lines = format!("{NAMES}{last},0\n");
            assert_eq!(to_image(lines.as_bytes()), vec![0; length]);
            assert_eq!(to_lines(Some(&vec![0; length])), lines.as_bytes());
        }
    }

    #[test]
    fn the_length_is_tested_last() {
        assert_eq!(refused(""), "0,13\n");
        assert_eq!(refused("0,1\n"), "0,13\n");
        assert_eq!(refused("1000,1\n"), "0,13\n");
        assert_eq!(refused("8ffc,1\n"), "0,13\n");
        assert_eq!(refused("fffffffc,1\n"), "0,13\n");
        assert_eq!(refused("8ffc,1\nzz\n"), "3,12\n");
        assert_eq!(refused("fffffffc,1\nfffffffc,1\n"), "3,13\n");
    }

    #[test]
    fn the_names() {
        for names in ["", "\n", "at,word", "at,word\r\n", "At,word\n", "at,wor\n"] {
            assert_eq!(to_image(names.as_bytes()), b"1,12\n", "{names:?}");
            let more = format!("{names}ffc,0\n");
            assert_eq!(to_image(more.as_bytes()), b"1,12\n", "{more:?}");
        }
    }

    #[test]
    fn shape_and_spelling() {
        for line in [
            "",
            ",",
            "4",
            "4,",
            ",4",
            "4,1,",
            "4,1,1",
            "04,1",
            "4,01",
            "4,00",
            "4,A",
            "C,1",
            "+4,1",
            "4,-1",
            "0x4,1",
            " 4,1",
            "4,1 ",
            "4,1\r",
            "4;1",
            "g,1",
            "100000000,1",
            "4,100000000",
        ] {
            assert_eq!(
                refused(&format!("0,1\n{line}\nffc,1\n")),
                "3,12\n",
                "{line:?}"
            );
        }
        assert_eq!(refused("0,1\nffc,1"), "3,12\n");
        assert_eq!(refused("ffc,1\n\n"), "3,12\n");
        assert_eq!(to_image(b"at,word\n\xFF,1\n"), b"2,12\n");
    }

    #[test]
    fn order_and_multiples_of_4() {
        for line in ["0,1", "4,1", "5,1", "9,1", "a,1", "b,1", "8,0", "3,0"] {
            assert_eq!(
                refused(&format!("4,1\n{line}\nffc,1\n")),
                "3,13\n",
                "{line}"
            );
        }
        assert_eq!(refused("80000000,1\n7ffffffc,1\n"), "3,13\n");
        assert_eq!(refused("7ffffffc,1\n80000000,1\n"), "0,13\n");
        assert_eq!(refused("3,zz\n"), "2,12\n");
        assert_eq!(refused("3,1\n"), "2,13\n");
    }

    #[test]
    fn a_zero_word_that_bytes_follow() {
        for more in ["x", "\n", "1000,1\n", "ffc,0\n", "\0"] {
            assert_eq!(refused(&format!("ffc,0\n{more}")), "2,13\n", "{more:?}");
        }
        assert_eq!(refused("0,1\n4,0\nffc,1\n"), "3,13\n");
        assert_eq!(refused("ffc,0"), "2,12\n");
    }

    #[test]
    fn numbers_of_lines_in_hexadecimal() {
        let lines: String = (0..20_000).map(|n| format!("{:x},1\n", 4 * n)).collect();
        assert_eq!(refused(&lines), "0,13\n");
        assert_eq!(refused(&format!("{lines}zz\n")), "4e22,12\n");
        assert_eq!(refused(&format!("{lines}0,1\n")), "4e22,13\n");
    }
}
