//! Single walks, through the C function and through the model.
use crate::archive;
use crate::images::{
    image_generated, image_of_root_words, image_of_sections, image_of_tables, NG_PAGE,
};
use crate::timing::{print_row, shortest, RUNS};
use model::random::Random;
use model::walk::{fault, single_walk};
use std::hint::black_box;
use std::io;
use std::path::Path;

const WALKS: usize = 100_000;

/// Walks to be timed.
struct Walks {
    name: &'static str,
    image: Vec<u8>,
    root: u32,
    addresses: Vec<u32>,
}

/// Walks of any addresses of an image.
fn walks(name: &'static str, image: Vec<u8>, root: u32) -> Walks {
    let mut random = Random::new(1);
    Walks {
        name,
        image,
        root,
        addresses: (0..WALKS).map(|_| random.word() & 0x3F_FFFF).collect(),
    }
}

/// How a walk ends.
#[derive(PartialEq, Clone, Copy)]
enum End {
    Page,
    Section,
    Fault(u32),
}

fn end(answer: u64) -> End {
    match answer.checked_sub(0x1_0000_0000) {
        Some(fault) => End::Fault(fault as u32),
        None if answer & 1 << 8 == 0 => End::Page,
        None => End::Section,
    }
}

/// Images and roots in which all walks end alike.
fn alike() -> [(&'static str, Vec<u8>, u32, End); 6] {
    let tables = || image_of_tables([NG_PAGE, 0]);
    let behind = tables().len() as u32;
    let root_words = image_of_root_words;
    [
        ("a page table", tables(), 0, End::Page),
        ("a section", image_of_sections(), 0, End::Section),
        (
            "an unmapped page, by level one",
            root_words(0),
            0,
            End::Fault(fault::UNMAPPED_FIRST),
        ),
        (
            "an unmapped page, by its table",
            root_words(0x401),
            0,
            End::Fault(fault::UNMAPPED_SECOND),
        ),
        (
            "leaves memory at level one",
            tables(),
            behind,
            End::Fault(fault::WALK_OUTSIDE_FIRST),
        ),
        (
            "leaves memory at level two",
            root_words(behind | 1),
            0,
            End::Fault(fault::WALK_OUTSIDE_SECOND),
        ),
    ]
}

/// All walks that are timed: of a generated image, which end in every way, then those that end alike.
fn all() -> Vec<Walks> {
    let mut all = vec![walks("a generated image", image_generated(), 0)];
    for (name, image, root, expected) in alike() {
        let walks = walks(name, image, root);
        for a in &walks.addresses {
            let answer = single_walk(&walks.image, root, *a);
            assert!(end(answer) == expected, "{name}: {a:#x} gives {answer:#x}");
        }
        all.push(walks);
    }
    all
}

fn run(walks: &Walks, walk: impl Fn(&[u8], u32, u32) -> u64) {
    for a in &walks.addresses {
        black_box(walk(black_box(&walks.image), walks.root, *a));
    }
}

/// Prints the times of the C function and of the model.
pub fn against_model() {
    println!("| 100,000 walks | proved | the model | ratio |\n|---|---|---|---|");
    for w in all() {
        let [ours, model] = shortest(
            RUNS,
            [&mut || run(&w, calls::walk), &mut || run(&w, single_walk)],
        );
        print_row(w.name, ours, &[model]);
    }
}

/// Prints the times of the C function of one archive, `after`, of an earlier one, `before`, and of
/// the model.
pub fn against_before(before: &Path, after: &Path) -> io::Result<()> {
    // SAFETY: the command is given archives of `scripts/archives`.
    let (before, after) = unsafe { (archive::walk(before)?, archive::walk(after)?) };
    println!(
        "| 100,000 walks | after | before | ratio | the model | ratio |\n|---|---|---|---|---|---|"
    );
    for w in all() {
        for a in &w.addresses {
            let expected = single_walk(&w.image, w.root, *a);
            assert_eq!(before.walk(&w.image, w.root, *a), expected, "{}", w.name);
            assert_eq!(after.walk(&w.image, w.root, *a), expected, "{}", w.name);
        }
        let [new, old, model] = shortest(
            RUNS,
            [
                &mut || run(&w, |image, root, a| after.walk(image, root, a)),
                &mut || run(&w, |image, root, a| before.walk(image, root, a)),
                &mut || run(&w, single_walk),
            ],
        );
        print_row(w.name, new, &[old, model]);
    }
    Ok(())
}
