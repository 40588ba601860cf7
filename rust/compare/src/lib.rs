//! What the comparisons share: how many cases to try and from which seed, tallies, the cases that
//! failed, and reports that have to be the model's.
use model::list::report;
use model::random::Random;
use std::collections::BTreeMap;
use std::fmt::Debug;
use std::path::PathBuf;
use std::{env, fs};

/// A number from the environment, or the usual one.
fn setting(name: &str, usual: u64) -> u64 {
    match env::var(name) {
        Ok(text) => text
            .parse()
            .unwrap_or_else(|_| panic!("{name} is no number: {text}")),
        Err(_) => usual,
    }
}

/// The generators of this many cases: `SEED` sets the seed, `COUNT` multiplies the cases.
pub fn cases(usual: u64) -> impl Iterator<Item = (u64, Random)> {
    let seed = setting("SEED", 1);
    let count = usual * setting("COUNT", 1);
    (0..count).map(move |i| {
        (
            i,
            Random::new(seed.wrapping_mul(0x1_0000_0001).wrapping_add(i)),
        )
    })
}

/// How often each thing was seen.
pub struct Tally<T: Ord>(BTreeMap<T, u64>);

impl<T: Ord + Debug> Default for Tally<T> {
    fn default() -> Tally<T> {
        Tally::new()
    }
}

impl<T: Ord + Debug> Tally<T> {
    pub fn new() -> Tally<T> {
        Tally(BTreeMap::new())
    }

    pub fn add(&mut self, what: T) {
        *self.0.entry(what).or_default() += 1;
    }

    /// Prints the tally, and fails if one of these was never seen.
    pub fn must_have(&self, name: &str, wanted: impl IntoIterator<Item = T>) {
        println!("{name}: {:?}", self.0);
        let missing: Vec<T> = wanted
            .into_iter()
            .filter(|what| !self.0.contains_key(what))
            .collect();
        assert!(missing.is_empty(), "{name}: never seen: {missing:?}");
    }
}

/// Writes the files of a case that failed, and returns the folder.
pub fn keep(name: &str, case: u64, files: &[(&str, &[u8])]) -> PathBuf {
    let folder = PathBuf::from(env!("CARGO_MANIFEST_DIR"))
        .join("../target/failed")
        .join(format!("{name}-{case}"));
    fs::create_dir_all(&folder).expect("a folder for the case");
    for (file, bytes) in files {
        fs::write(folder.join(file), bytes).expect("a file of the case");
    }
    folder
}

/// The program's report of a list on an image file, which has to be the model's. What belongs to a
/// case in which it is not is kept.
pub fn same_report(name: &str, case: u64, image: Option<&[u8]>, list: &[u8]) -> String {
    let expected = report(image, list);
    let found = programs::replay(list, image);
    if expected.as_bytes() != found {
        let files: [(&str, &[u8]); 4] = [
            ("image.bin", image.unwrap_or_default()),
            ("list", list),
            ("expected", expected.as_bytes()),
            ("found", &found),
        ];
        let folder = keep(name, case, &files);
        panic!("the reports differ; they are in {}", folder.display());
    }
    expected
}

/// An image of 32,768 bytes, zero but for these words.
pub fn image(words: &[(usize, u32)]) -> Vec<u8> {
    let mut image = vec![0; 32_768];
    for (at, word) in words {
        image[*at..*at + 4].copy_from_slice(&word.to_le_bytes());
    }
    image
}

/// What the program prints behind its header, which has to be what the model says.
pub fn lines(image: &[u8], list: &str) -> Vec<String> {
    let list = format!("op,a,b,c\n{list}");
    let found = programs::replay(list.as_bytes(), Some(image));
    assert_eq!(found, report(Some(image), list.as_bytes()).into_bytes());
    let found = String::from_utf8(found).expect("a report is ASCII");
    found.lines().skip(1).map(String::from).collect()
}
