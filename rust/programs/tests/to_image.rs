//! The program `to_image`: lines that are an image, each way in which lines are refused, and streams
//! that come in parts, have no end, fail, or are longer than the memory that it has.
use model::generate::image_a;
use model::generate_lines::LINES_OF_A;
use model::lines::NAMES;
use programs::{
    by_shell, ended, fed, feed, finish, kept, only_says, paused, prints, program, started, told,
    unwritable, with_open_pipe, Folder,
};
use std::fs::{self, File};
use std::io::Write;
use std::iter::{once, repeat, repeat_n};
use std::os::fd::OwnedFd;
use std::os::unix::net::UnixDatagram;
use std::process::{Command, Output};
use std::thread;

/// The program, in a folder, with nothing on standard input.
fn to_image(folder: &Folder) -> Command {
    kept(program("to_image", folder.path()))
}

/// What is printed for the names and these lines.
fn image(lines: &str) -> Vec<u8> {
    programs::to_image(format!("{NAMES}{lines}").as_bytes())
}

/// That for this text a refusal is printed, and nothing else.
fn text_refused(text: &str, refusal: &str) {
    let printed = programs::to_image(text.as_bytes());
    let start = text.get(..60).unwrap_or(text);
    assert_eq!(printed, format!("{refusal}\n").as_bytes(), "{start:?}");
}

/// The same for the names and these lines.
fn refused(lines: &str, refusal: &str) {
    text_refused(&format!("{NAMES}{lines}"), refusal);
}

/// The lines of so many words, each ffffffff, from this address on.
fn rising(first: u32, count: u32) -> String {
    let addresses = (0..count).map(|n| first + 4 * n);
    addresses.map(|at| format!("{at:x},ffffffff\n")).collect()
}

#[test]
fn image_a_of_the_rules() {
    assert!(programs::to_image(LINES_OF_A.as_bytes()) == image_a());
}

#[test]
fn images_of_zeros() {
    for (line, length) in [
        ("ffc,0\n", 4_096),
        ("1ffc,0\n", 8_192),
        ("2ffc,0\n", 12_288),
        ("3ffc,0\n", 16_384),
        ("4ffc,0\n", 20_480),
        ("5ffc,0\n", 24_576),
        ("6ffc,0\n", 28_672),
        ("7ffc,0\n", 32_768),
    ] {
        assert!(image(line) == vec![0; length], "{line}");
    }
}

#[test]
fn where_bytes_stand() {
    let mut expected = vec![0; 4_096];
    expected[..4].copy_from_slice(&[0x78, 0x56, 0x34, 0x12]);
    for at in [4, 9, 14, 19] {
        expected[at] = 1;
    }
    expected[0xFF8..].copy_from_slice(&[0xFF, 0xFF, 0xFF, 0xFF, 0x0D, 0x0C, 0x0B, 0x0A]);
    let lines = "0,12345678\n4,1\n8,100\nc,10000\n10,1000000\nff8,ffffffff\nffc,a0b0c0d\n";
    assert!(image(lines) == expected);
}

#[test]
fn a_line_for_every_word() {
    assert!(image(&rising(0, 8_192)) == [0xFF; 32_768]);
    refused(&rising(0, 8_191), "0,13");
    refused(&rising(0, 8_193), "0,13");
}

#[test]
fn the_names() {
    for names in [
        "",
        "\n",
        "a",
        "at\n",
        "at,wor\n",
        "t,word\n",
        "at,word",
        "At,word\n",
        "at,Word\n",
        "at;word\n",
        "word,at\n",
        "at,words\n",
        "at,word \n",
        "at, word\n",
        " at,word\n",
        "at,word,\n",
        "at,word\r\n",
        "at,word\0\n",
        "at\n,word\n",
        "\nat,word\n",
        "\u{feff}at,word\n",
        "op,a,b,c\n",
        "ffc,0\n",
    ] {
        text_refused(names, "1,12");
        text_refused(&format!("{names}ffc,1\n"), "1,12");
    }
    refused("", "0,13");
    refused(NAMES, "2,12");
}

/// The length is that of no image: tested when all lines are accepted, and not before.
#[test]
fn lengths() {
    for last in [
        "0", "4", "ff8", "1000", "1ff8", "2000", "7ff8", "8000", "8ffc", "fffc", "10ffc",
        "7ffffffc", "80000ffc", "ffff7ffc", "fffffff8", "fffffffc",
    ] {
        refused(&format!("{last},1\n"), "0,13");
        refused(&format!("{last},0\n"), "0,13");
        refused(&format!("{last},1\nzz\n"), "3,12");
        refused(&format!("{last},1\n{last},1\n"), "3,13");
    }
}

#[test]
fn addresses_that_do_not_rise() {
    for (first, second) in [
        ("0", "0"),
        ("4", "0"),
        ("4", "4"),
        ("ffc", "ffc"),
        ("ffc", "ff8"),
        ("7ffc", "0"),
        ("10", "c"),
        ("100", "fc"),
        ("80000000", "7ffffffc"),
        ("fffffffc", "0"),
        ("fffffffc", "fffffff8"),
        ("fffffffc", "fffffffc"),
    ] {
        refused(&format!("{first},1\n{second},1\n"), "3,13");
        refused(&format!("{first},1\n{second},1\nzz"), "3,13");
    }
    refused("7ffffffc,1\n80000000,1\n", "0,13");
    refused("0,1\n4,1\n8,1\n4,1\nffc,1\n", "5,13");
}

#[test]
fn addresses_that_are_no_multiple_of_4() {
    for at in [
        "1", "2", "3", "5", "6", "7", "ffd", "ffe", "fff", "ffffffff",
    ] {
        refused(&format!("{at},1\n"), "2,13");
        refused(&format!("{at},0\nzz\n"), "2,13");
        refused(&format!("{at},zz\n"), "2,12");
    }
}

#[test]
fn bytes_behind_a_zero_word() {
    for byte in 0..=255 {
        let lines = [b"at,word\nffc,0\n", &[byte][..]].concat();
        assert_eq!(programs::to_image(&lines), b"2,13\n", "{byte}");
    }
}

#[test]
fn zero_words_that_lines_follow() {
    for more in ["1000,1\n", "ffc,1\n", "ffc,0\n", "zz\n", "1ffc,0", "\r\n"] {
        refused(&format!("ffc,0\n{more}"), "2,13");
        refused(&format!("0,1\n4,0\n{more}"), "3,13");
    }
}

/// Lines that are no address, comma, word and newline, or have a value misspelled.
#[test]
fn shape_and_spelling() {
    for line in [
        ",", ",,", "8", "8,", ",8", "8,1,", ",8,1", "8,1,1", "8,,1", "zz", "8,zz", "zz,1", "8;1",
        "8 1", "8,1\r", "8\r,1", "8,1 ", "8, 1", " 8,1", "8 ,1", "8,1\t", "08,1", "8,01", "8,00",
        "00,1", "8,A", "C,1", "8,aB", "0x8,1", "8,0x1", "+8,1", "8,-1", "8,g", "8,1\0", "8,1#",
    ] {
        refused(line, "2,12");
        refused(&format!("{line}\n"), "2,12");
        refused(&format!("0,1\n{line}\nffc,1\n"), "3,12");
    }
    refused("\n", "2,12");
    refused("0,1\n\nffc,1\n", "3,12");
    refused("ffc,1\n\n", "3,12");
}

/// Each byte that is no digit, inside an address and before a word.
#[test]
fn bytes_that_are_no_digits() {
    let digits = b"0123456789abcdef";
    for byte in (0..=255).filter(|byte| !digits.contains(byte)) {
        for (before, behind) in [("10", "00,1\n"), ("1000,", "1\n")] {
            let before = format!("{NAMES}{before}");
            let lines = [before.as_bytes(), &[byte], behind.as_bytes()].concat();
            assert_eq!(programs::to_image(&lines), b"2,12\n", "{byte}, {behind:?}");
        }
    }
}

/// What is wrong with the form of a line comes before what is wrong with its values.
#[test]
fn form_first_on_each_line() {
    refused("3,zz\n", "2,12");
    refused("3,1\n", "2,13");
    refused("3,01\n", "2,12");
    refused("3,1", "2,12");
    refused("3,0,\nx", "2,12");
    refused("4,1\n4,1 \n", "3,12");
    refused("4,1\n0,g\n", "3,12");
    refused("4,1\n0,0\r\nx", "3,12");
    refused("4,0\nzz\n", "2,13");
}

#[test]
fn a_last_line_without_its_newline() {
    for line in [
        "ffc,1",
        "ffc,0",
        "ffc,",
        "ffc",
        "f",
        ",",
        "fffffffc,ffffffff",
    ] {
        refused(line, "2,12");
        refused(&format!("0,1\n{line}"), "3,12");
    }
}

/// A line has at most eight digits, a comma and eight digits.
#[test]
fn long_lines() {
    refused("fffffffc,ffffffff\n", "0,13");
    refused("7ffc,ffffffff\nfffffffc,0\n", "0,13");
    for line in [
        "fffffffc,ffffffff0",
        "fffffffc,0ffffffff",
        "fffffffc0,ffffffff",
        "0fffffffc,ffffffff",
        "100000000,1",
        "000000008,1",
        "8,100000000",
        "8,000000001",
    ] {
        refused(&format!("{line}\n"), "2,12");
    }
    for line in ["f", "0", ",", "\0", "ffc,1,"] {
        let long = line.repeat(1 << 20);
        for end in ["", "\n"] {
            refused(&format!("{long}{end}"), "2,12");
            text_refused(&format!("{long}{end}"), "1,12");
        }
    }
}

#[test]
fn the_numbers_of_lines() {
    let lines = rising(0, 20_000);
    refused(&lines, "0,13");
    refused(&format!("{lines}zz\n"), "4e22,12");
    refused(&format!("{lines}zz"), "4e22,12");
    refused(&format!("{lines}0,1\n"), "4e22,13");
    for (count, refusal) in [
        (7, "9,13"),
        (8, "a,13"),
        (13, "f,13"),
        (14, "10,13"),
        (253, "ff,13"),
        (254, "100,13"),
    ] {
        refused(&format!("{}0,1\n", rising(0, count)), refusal);
    }
}

#[test]
fn some_megabytes() {
    let lines = rising(0, 300_000);
    assert!(lines.len() > 4_000_000);
    refused(&lines, "0,13");
    refused(&format!("{lines}124f80,0\n"), "0,13");
    refused(&format!("{lines}124f7c,1\n"), "493e2,13");
    refused(&format!("{lines}\n"), "493e2,12");
}

/// Texts that are cut into parts, and what is printed for them.
fn to_cut() -> [(String, Vec<u8>); 4] {
    let end = format!("{NAMES}{}", rising(0x7C00, 256));
    let image = [vec![0; 0x7C00], vec![0xFF; 0x400]].concat();
    let refused = |refusal: &str| refusal.as_bytes().to_vec();
    [
        (format!("{end}fffffffc,ffffffff\n"), refused("0,13\n")),
        (format!("{end}8000,0\n\n"), refused("102,13\n")),
        (end, image),
        (LINES_OF_A.to_string(), image_a()),
    ]
}

/// That the program printed this, and said nothing.
fn has_printed(output: &Output, expected: &[u8]) {
    assert_eq!(String::from_utf8_lossy(&output.stderr), "");
    assert!(output.stdout == expected);
}

#[test]
fn lines_in_parts() {
    let folder = Folder::with_image(None);
    for (text, expected) in to_cut() {
        for size in [1, 2, 3, 5, 7, 8, 9, 13, 17, 64, 511, 1_023] {
            let output = fed(&mut to_image(&folder), text.as_bytes().chunks(size));
            has_printed(&output, &expected);
        }
    }
}

/// The output of the program if each read brings one of these parts, and the reads behind them none.
fn by_reads<'a>(parts: impl Iterator<Item = &'a [u8]> + Send) -> Output {
    let folder = Folder::with_image(None);
    let (ours, theirs) = UnixDatagram::pair().expect("a connection");
    let child = to_image(&folder).stdin(OwnedFd::from(theirs)).spawn();
    let parts = parts.chain(repeat_n(&b""[..], 4));
    thread::scope(|scope| {
        // A program that has ended takes no more parts.
        scope.spawn(move || parts.map_while(|part| ours.send(part).ok()).count());
        finish(child.expect("to_image runs"))
    })
}

#[test]
fn a_read_for_each_part() {
    for (text, expected) in to_cut() {
        for size in [1, 2, 17, 100] {
            has_printed(&by_reads(text.as_bytes().chunks(size)), &expected);
        }
    }
}

/// It reads on until the lines are refused, and no further.
#[test]
fn lines_without_end() {
    let folder = Folder::with_image(None);
    for (first, again, expected) in [
        ("", "\0", "1,12\n"),
        (NAMES, "f", "2,12\n"),
        (NAMES, "zz\n", "2,12\n"),
        (NAMES, "ffc,0\n", "2,13\n"),
        (NAMES, "ffc,1\n", "3,13\n"),
        (LINES_OF_A, "8000,1\n", "7,13\n"),
    ] {
        let many = again.repeat(1_000);
        let parts = once(first).chain(repeat(many.as_str()));
        let output = fed(&mut to_image(&folder), parts);
        assert_eq!(told(&output), prints(expected), "{first:?}, {again:?}");
    }
}

#[test]
fn refused_lines_and_an_open_pipe() {
    let folder = Folder::with_image(None);
    for (lines, expected) in [
        ("at,words\n", "1,12\n"),
        ("at,word\nzz\n", "2,12\n"),
        ("at,word\n3,1\n", "2,13\n"),
        ("at,word\nffc,0\n0", "2,13\n"),
        ("at,word\nffc,1\nffc,1\n", "3,13\n"),
    ] {
        let told = with_open_pipe(&mut to_image(&folder), lines.as_bytes());
        assert_eq!(told, prints(expected), "{lines:?}");
    }
}

#[test]
fn lines_that_pause() {
    let folder = Folder::with_image(None);
    for lines in [
        "",
        "at,wo",
        NAMES,
        "at,word\nffc,",
        "at,word\nffc,0\n",
        "at,word\n8ffc,1\n",
        LINES_OF_A,
    ] {
        let (mut ours, theirs) = paused();
        ours.write_all(lines.as_bytes()).expect("the first lines");
        only_says(&ended(to_image(&folder).stdin(theirs)), "to_image: ");
    }
    let (mut ours, theirs) = paused();
    ours.write_all(b"at,word\nffc,1\nzz\n").expect("the lines");
    assert_eq!(ended(to_image(&folder).stdin(theirs)), prints("3,12\n"));
}

#[test]
fn standard_input_that_cannot_be_read() {
    let folder = Folder::with_image(None);
    let mut closed = by_shell("exec \"$@\" <&-", &to_image(&folder));
    only_says(&ended(&mut closed), "to_image: ");
    let directory = File::open(folder.path()).expect("the folder");
    only_says(&ended(to_image(&folder).stdin(directory)), "to_image: ");
}

#[test]
fn output_that_cannot_be_written() {
    let folder = Folder::with_image(None);
    let lines = folder.path().join("lines");
    for text in [LINES_OF_A, "at,word\nffc,0\n", NAMES, ""] {
        fs::write(&lines, text).expect("the lines");
        for mut command in unwritable(&to_image(&folder)) {
            let input = File::open(&lines).expect("the lines");
            only_says(&ended(command.stdin(input)), "to_image: ");
        }
    }
}

#[test]
fn an_image_and_arguments_change_nothing() {
    let folder = Folder::with_image(Some(b"at,word\n"));
    for arguments in [&[][..], &["--help"], &["image.bin"], &["0", "1"]] {
        let output = fed(to_image(&folder).args(arguments), [LINES_OF_A]);
        has_printed(&output, &image_a());
    }
    let kept = fs::read(folder.path().join("image.bin")).expect("the image");
    assert_eq!(kept, b"at,word\n");
}

/// The most memory that a process has had so far, in kB.
fn peak(id: u32) -> u64 {
    let status = fs::read_to_string(format!("/proc/{id}/status")).expect("its status");
    let peak = status.lines().find_map(|line| line.strip_prefix("VmHWM:"));
    let number = peak.and_then(|peak| peak.trim().strip_suffix(" kB"));
    number.and_then(|text| text.parse().ok()).expect("its peak")
}

/// The most memory by the time that a block of some 250,000 bytes is read, and when more than 50,000,000
/// are: they differ by 1,024 kB at most, and are below 32 MB.
#[test]
fn memory_does_not_grow() {
    const BLOCK: u32 = 16_384;
    let folder = Folder::with_image(None);
    let (child, mut pipe) = started(&mut to_image(&folder));
    let id = child.id();
    let (output, fed) = thread::scope(|scope| {
        let feeding = scope.spawn(move || {
            feed(&mut pipe, [NAMES]);
            let block = |n| {
                let lines = rising(4 * BLOCK * n, BLOCK);
                feed(&mut pipe, [&lines]);
                (lines.len(), peak(id))
            };
            (0..200).map(block).collect::<Vec<_>>()
        });
        (finish(child), feeding.join().expect("it reads to the end"))
    });
    assert_eq!(told(&output), prints("0,13\n"));
    assert!(fed.iter().map(|(bytes, _)| bytes).sum::<usize>() > 50_000_000);
    let (first, last) = (fed[0].1, fed[199].1);
    println!("the most memory: {first} kB, and {last} kB in the end");
    assert!(last <= first + 1_024, "{first} kB, then {last} kB");
    assert!(last < 32 * 1_024, "{last} kB");
}
