//! The longest lists, by the C function of the report, present and of an earlier commit, and by the
//! plain program's own function, in one process.
use crate::archive;
use crate::images::{image_a_mixed, image_of_sections, image_of_tables, NG_PAGE, NG_SECTION};
use crate::lists::op;
use crate::timing::shortest;
use calls::{Report, REPORT_BUFFER, REPORT_TRACK};
use model::generate;
use model::machine::{Kind, Operation};
use std::io;
use std::path::Path;
use std::time::Duration;

/// How many runs of each are timed.
const RUNS: usize = 100;

/// The most bytes of a list.
const LIST: usize = 65_536;

/// An image, an address from which on 256 bytes are plain data, and stores to descriptors of pages
/// that are not accessed.
struct Place {
    name: &'static str,
    image: Vec<u8>,
    data: u32,
    descriptor: fn(u32) -> Operation,
}

/// A store to the level-two word of one of 64 pages, from page 64 on.
fn second(i: u32) -> Operation {
    op(
        Kind::Write,
        0x500 + 4 * (i % 64),
        4,
        0x2032 + 0x1000 * (i % 4),
    )
}

/// A store to the level-one word of the last MiB: a section, own and global in turn.
fn first(i: u32) -> Operation {
    op(Kind::Write, 0xC, 4, 0xC02 | (NG_SECTION * (i % 2)))
}

fn places() -> [Place; 3] {
    let place = |name, image, data, descriptor| Place {
        name,
        image,
        data,
        descriptor,
    };
    let (a, tables, sections) = (
        image_a_mixed(),
        image_of_tables([NG_PAGE, 0]),
        image_of_sections(),
    );
    [
        place("Image A, of which two pages are mapped", a, 0x1000, second),
        place("All pages mapped by four tables", tables, 0x2000, second),
        place("All pages mapped by four sections", sections, 0x2000, first),
    ]
}

fn store(place: &Place, i: u32) -> Operation {
    op(Kind::Write, place.data + i % 256, 1, i % 16)
}

fn read(place: &Place, i: u32) -> Operation {
    op(Kind::Read, place.data + i % 256, 1, 0)
}

/// A flush of one page, in every context and in each of them in turn.
fn page_flush(place: &Place, i: u32) -> Operation {
    match i % 2 {
        0 => op(Kind::Addr, place.data, 0, 0),
        _ => op(Kind::AddrCtx, place.data, i / 2 % 8, 0),
    }
}

/// 99 data stores, then one to a descriptor, and so on.
fn mixed(place: &Place, i: u32) -> Operation {
    match i % 100 {
        99 => (place.descriptor)(i / 100),
        _ => store(place, i),
    }
}

/// What a list does, told which of its operations it is.
type Make = fn(&Place, u32) -> Operation;

const LISTS: [(&str, Make); 4] = [
    ("data stores", store),
    ("reads", read),
    ("page flushes", page_flush),
    ("data stores, 1 in 100 to a descriptor", mixed),
];

/// The most such operations that fit into a list, and the list.
fn longest(make: Make, place: &Place) -> (usize, Vec<u8>) {
    let operations: Vec<Operation> = (0..8_000).map(|i| make(place, i)).collect();
    let mut most = operations.len();
    while generate::text(&operations[..most]).len() > LIST {
        most -= 1;
    }
    (most, generate::text(&operations[..most]))
}

/// Buffers for reports, which are used again.
struct Buffers {
    track: Vec<u32>,
    out: Vec<u8>,
}

impl Buffers {
    fn new() -> Buffers {
        Buffers {
            track: vec![0; REPORT_TRACK],
            out: vec![0; REPORT_BUFFER],
        }
    }

    /// The report of a list on a copy of an image.
    fn report(&mut self, function: Report, image: &[u8], list: &[u8]) -> &[u8] {
        let (track, out) = (&mut self.track, &mut self.out);
        let length = function.report(&mut image.to_vec(), list, track, out);
        &self.out[..length as usize]
    }
}

/// The time of each: after, before, page by page, MiB by MiB. All have to report the same.
fn times([after, before]: [Report; 2], image: &[u8], list: &[u8]) -> [Duration; 4] {
    let plain = |note| rival::report(image.to_vec(), list, note);
    let report = plain(rival::by_page);
    assert!(report == plain(rival::by_mib), "the plain reports differ");
    let (mut here, mut there) = (Buffers::new(), Buffers::new());
    assert!(here.report(after, image, list) == report, "after differs");
    assert!(
        there.report(before, image, list) == report,
        "before differs"
    );
    shortest(
        RUNS,
        [
            &mut || assert!(!here.report(after, image, list).is_empty()),
            &mut || assert!(!there.report(before, image, list).is_empty()),
            &mut || drop(plain(rival::by_page)),
            &mut || drop(plain(rival::by_mib)),
        ],
    )
}

/// A row: the time of an operation, and how many times as long the others take.
fn print_row(name: &str, operations: usize, times: [Duration; 4]) {
    let each = times.map(|time| 1e9 * time.as_secs_f64() / operations as f64);
    print!("| {name} | {operations} | {:.0} ns |", each[0]);
    for other in &each[1..] {
        print!(" {other:.0} ns | {:.1} |", other / each[0]);
    }
    println!();
}

/// Each list on each image, start included, which is that of a list and not of a process.
pub fn against_before(before: &Path, after: &Path) -> io::Result<()> {
    // SAFETY: the command is given archives of `scripts/archives`.
    let functions = unsafe { [archive::report(after)?, archive::report(before)?] };
    for place in places() {
        println!("\n{}:\n", place.name);
        println!("| list | operations | after | before | times | page by page | times | MiB by MiB | times |");
        println!("|---|---|---|---|---|---|---|---|---|");
        for (what, make) in LISTS {
            let (operations, list) = longest(make, &place);
            print_row(what, operations, times(functions, &place.image, &list));
        }
    }
    Ok(())
}
