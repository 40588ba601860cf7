//! Lists, through the program `replay` and through the plain program.
use crate::images::{image_a_mixed, image_of_sections, image_of_tables, NG_PAGE};
use crate::timing::{print_row, shortest};
use model::generate;
use model::machine::{Kind, Operation, CLIENTS};
use std::path::Path;
use std::process::Command;
use std::{env, fs};

pub fn op(kind: Kind, a: u32, b: u32, c: u32) -> Operation {
    Operation { kind, a, b, c }
}

/// A list to be timed, and the memory it starts from.
struct List {
    name: &'static str,
    image: Vec<u8>,
    operations: Vec<Operation>,
}

/// A store to one of 64 level-two words. Neighbours are own and global in turn, and each page turns
/// from one to the other when its word comes round again.
fn descriptor_store(i: u32) -> Operation {
    let (word, round) = (i % 64, i / 64);
    let ng = if (word + round) % 2 == 0 { NG_PAGE } else { 0 };
    let value = (0x2002 + 0x1000 * (i % 4)) | ng;
    op(Kind::Write, 0x408 + 4 * word, 4, value)
}

/// The flushes in turn, of one page and of each context.
fn flush(i: u32) -> Operation {
    match i % 4 {
        0 => op(Kind::All, 0, 0, 0),
        1 => op(Kind::Addr, 0x1000, 0, 0),
        2 => op(Kind::Ctx, i % 8, 0, 0),
        _ => op(Kind::AddrCtx, 0x1000, i % 8, 0),
    }
}

/// The lists. Each is within 65,536 bytes.
fn lists() -> Vec<List> {
    let data = |i: u32| op(Kind::Write, 0x1000 + i % 256, 1, i % 16);
    let read = |i: u32| op(Kind::Read, 0x1000 + i % 256, 1, 0);
    let fetch = |i: u32| op(Kind::Fetch, 0x1000 + 4 * (i % 64), 0, 0);
    let domain = |i: u32| op(Kind::Domain, CLIENTS ^ (i % 2), 0, 0);
    let all = |n: u32, operation: &dyn Fn(u32) -> Operation| (0..n).map(operation).collect();
    let on_image_a = |name, operations| List {
        name,
        image: image_a_mixed(),
        operations,
    };
    let reads = |name, image| List {
        name,
        image,
        operations: all(4_000, &read),
    };
    vec![
        on_image_a("names alone", Vec::new()),
        on_image_a("4,000 data stores", all(4_000, &data)),
        on_image_a("2,000 descriptor stores", all(2_000, &descriptor_store)),
        on_image_a("3,500 flushes", all(3_500, &flush)),
        on_image_a("4,000 reads", all(4_000, &read)),
        on_image_a("4,000 fetches", all(4_000, &fetch)),
        on_image_a("3,000 changes of the domain register", all(3_000, &domain)),
        reads(
            "4,000 reads, all 1,024 pages mapped by tables",
            image_of_tables([NG_PAGE, 0]),
        ),
        reads(
            "4,000 reads, all 1,024 pages mapped by tables, all global",
            image_of_tables([0, 0]),
        ),
        reads(
            "4,000 reads, two own and two global sections",
            image_of_sections(),
        ),
    ]
}

/// The ways to note the rows that the plain program has, by the argument that asks for each.
pub const WAYS: [(&str, rival::Note); 2] = [("by-page", rival::by_page), ("by-mib", rival::by_mib)];

fn rival(way: &str, list: &Path, folder: &Path) -> Vec<u8> {
    let program = env::current_exe().expect("this program has a path");
    let output = Command::new(program)
        .arg(way)
        .current_dir(folder)
        .stdin(fs::File::open(list).expect("the list"))
        .output()
        .expect("rival runs");
    output.stdout
}

pub fn reports() {
    println!(
        "| what | proved | page by page | ratio | MiB by MiB | ratio |\n|---|---|---|---|---|---|"
    );
    let [(by_page, _), (by_mib, _)] = WAYS;
    for List {
        name,
        image,
        operations,
    } in lists()
    {
        let folder = programs::Folder::with_image(Some(&image));
        let text = generate::text(&operations);
        assert!(text.len() <= 65_536, "{name}: {} bytes", text.len());
        let list = folder.path().join("list");
        fs::write(&list, &text).expect("the list");
        let report = programs::replay_in(&folder, &list);
        let lines = report.iter().filter(|b| **b == b'\n').count();
        assert_eq!(lines, 1 + operations.len(), "{name}: lines of the report");
        let stopped = report
            .split(|b| *b == b'\n')
            .any(|l| l.split(|b| *b == b',').nth(1) == Some(b"-"));
        assert!(!stopped, "{name}: the list is turned back");
        for (way, _) in WAYS {
            assert!(
                report == rival(way, &list, folder.path()),
                "{name}: the report of {way} differs"
            );
        }
        let [ours, page, mib] = shortest(
            100,
            [
                &mut || drop(programs::replay_in(&folder, &list)),
                &mut || drop(rival(by_page, &list, folder.path())),
                &mut || drop(rival(by_mib, &list, folder.path())),
            ],
        );
        print_row(name, ours, &[page, mib]);
    }
}
