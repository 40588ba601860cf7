//! The images that are walked, and on which accesses and lists are timed.
use model::generate;
use model::random::Random;

/// nG of a page, and of a section.
pub const NG_PAGE: u32 = 1 << 11;
pub const NG_SECTION: u32 = 1 << 17;

fn put(image: &mut [u8], at: u32, word: u32) {
    image[at as usize..at as usize + 4].copy_from_slice(&word.to_le_bytes());
}

/// Image A with its page 1 global, so that it maps one page of each kind.
pub fn image_a_mixed() -> Vec<u8> {
    let mut image = generate::image_a();
    put(&mut image, 0x404, 0x3832 & !NG_PAGE);
    image
}

/// A generated image whose root has a table, a section, no mapping and a table behind memory, all
/// in domain 0: a walk that tells no domain answers alike.
pub fn image_generated() -> Vec<u8> {
    let mut image = generate::image(&mut Random::new(1));
    let behind = image.len() as u32;
    for (mib, word) in (0..).zip([0x401, 0xC02 | NG_SECTION, 0, behind | 1]) {
        put(&mut image, 4 * mib, word);
    }
    image
}

/// An image whose root points to four tables, which map all 1,024 pages to the image's eight. The
/// pages have these nG bits in turn.
pub fn image_of_tables(ng: [u32; 2]) -> Vec<u8> {
    let mut image = vec![0; 32_768];
    for mib in 0..4 {
        put(&mut image, 4 * mib, 0x400 * (mib + 1) + 1);
    }
    for page in 0..1024 {
        let word = (page % 8) << 12 | 0x032 | ng[page as usize % 2];
        put(&mut image, 0x400 + 4 * page, word);
    }
    image
}

/// An image whose root has four sections at 0, own and global in turn.
pub fn image_of_sections() -> Vec<u8> {
    let mut image = vec![0; 32_768];
    for mib in 0..4 {
        let ng = if mib % 2 == 0 { NG_SECTION } else { 0 };
        put(&mut image, 4 * mib, 0xC02 | ng);
    }
    image
}

/// An image of zeros but for its root, whose four words are this one.
pub fn image_of_root_words(word: u32) -> Vec<u8> {
    let mut image = vec![0; 32_768];
    for mib in 0..4 {
        put(&mut image, 4 * mib, word);
    }
    image
}

/// Each word of the second half of `image_of_one`.
pub const WORD: u32 = 0x1234_5678;

/// An image of one page, of which the root and the table at 0x400 have a first word and no other.
pub fn image_of_one(first: u32, second: u32) -> Vec<u8> {
    let mut image = vec![0; 4096];
    put(&mut image, 0, first);
    put(&mut image, 0x400, second);
    for at in (0x800..0x1000).step_by(4) {
        put(&mut image, at, WORD);
    }
    image
}
