//! What `./replay` says of a list: where a refusal stands, what to do about it, and the verdict, which is never better than what was shown.
use model::generate::image_a;
use programs::{ended, kept, repository, Folder, Told};
use std::fs;
use std::process::Command;

const NAMES: &str = "op,a,b,c\n";

/// What the command tells of image bytes and the lines of a list behind its names.
fn of(image: &[u8], list: &str) -> Told {
    let folder = Folder::with_image(Some(image));
    fs::write(folder.path().join("list"), list).expect("the list");
    let mut command = kept(programs::command("replay"));
    command
        .args(["image.bin", "list"])
        .current_dir(folder.path());
    ended(&mut command)
}

fn of_lines(lines: &str) -> Told {
    of(&image_a(), &format!("{NAMES}{lines}"))
}

/// The last line on standard error.
fn verdict(told: &Told) -> &str {
    told.2.lines().last().unwrap_or_default()
}

/// The stale list of image A: page 1 is read, mapped elsewhere by a store, and read again.
const STALE: &str = "read,1000,4,0\nwrite,404,4,4832\nread,1000,4,0\n";

/// Lines of a list, the status, and the verdict.
const VERDICTS: [(&str, i32, &str); 9] = [
    ("read,1000,4,0\n", 0, "clean: no TLB makes a difference (1 operation)"),
    ("fetch,1000,0,0\nread,2000,4,0\n", 0, "clean: no TLB makes a difference (2 operations)"),
    (STALE, 1, "not clean: 1 line stale, the first at list:4"),
    (
        "read,1000,4,0\nmode\nmode,0,0,0\n",
        3,
        "not judged: list:3 cannot be read, 1 line behind it was not looked at",
    ),
    (
        "read,1000,4,0\nmode\nall,0,0,0\nall,0,0,0",
        3,
        "not judged: list:3 cannot be read, 2 lines behind it were not looked at",
    ),
    (
        "asid,8,0,0\nread,1000,4,0\n",
        3,
        "not judged: 1 line refused and not carried out, the first at list:2",
    ),
    ("", 0, "nothing to judge: list has no operations"),
    (
        "mode,1,0,0\n",
        0,
        "nothing to judge: list reads, writes and fetches nothing (1 operation)",
    ),
    (
        "read,2000,4,0\nread,1001,4,0\n",
        0,
        "no access went through: 2 of 2 faulted, and no TLB makes a difference to that (2 operations)",
    ),
];

#[test]
fn each_verdict() {
    for (lines, status, says) in VERDICTS {
        let told = of_lines(lines);
        assert_eq!((told.0, verdict(&told)), (status, says), "{lines}");
    }
    let twice = of_lines(&format!("{STALE}read,1000,1,0\n"));
    let says = "not clean: 2 lines stale, the first at list:4";
    assert_eq!((twice.0, verdict(&twice)), (1, says));
    let more = "mode,0,0,0\n".repeat(805);
    let cut = of_lines(&format!("mode,0,0,0\n{STALE}mode\n{more}"));
    let says = "not clean: 1 line stale, the first at list:5; list:6 cannot be read, 805 lines behind it were not looked at";
    assert_eq!((cut.0, verdict(&cut)), (1, says));
    let long = format!("{NAMES}{}", "mode,0,0,0\n".repeat(5_958));
    let told = of(&image_a(), &long);
    let says = "not judged: list has more than 65,536 bytes, and no line of it was looked at";
    assert_eq!((told.0, verdict(&told)), (3, says));
    for list in ["read,1000,4,0\n", ""] {
        let told = of(&image_a(), list);
        let says = "not judged: list:1 cannot be read, 0 lines behind it were not looked at";
        assert_eq!((told.0, verdict(&told)), (3, says));
    }
    let told = of(&image_a()[..5_000], NAMES);
    let says = "not judged: the image image.bin is refused, and the list was not looked at";
    assert_eq!((told.0, verdict(&told)), (3, says));
}

/// A line, and what is said of the place where it is wrong.
const PLACES: [(&str, &str); 22] = [
    ("write,0x404,4,4832", "list:2:7: the second field, 0x404: a value is written without 0x: refused: 4, "),
    ("write,0x404,04,AB", "list:2:7: the second field, 0x404: a value is written without 0x: refused: 4, "),
    ("write,404,4,ABC", "list:2:13: the fourth field, ABC: a value is written in lower case: refused: 4, "),
    ("write,404,04,1", "list:2:11: the third field, 04: a value has no leading zeros: refused: 4, "),
    ("write,,4,1", "list:2:7: the second field, empty: a value is missing: refused: 4, "),
    ("write,404, 4,1", "list:2:11: the third field,  4: a value is written without blanks: refused: 4, "),
    ("write,123456789,4,1", "list:2:7: the second field, 123456789: a value has at most 8 digits: refused: 4, "),
    ("write,404,4,1\r", "list:2:13: the fourth field, 1^M: the line ends with a carriage return: "),
    ("write,4g4,4,1", "list:2:7: the second field, 4g4: a value is of the digits 0 to 9 and a to f: refused: 4, "),
    ("write,404,4", "list:2: write,404,4: the line has 3 fields, not four: refused: 3, "),
    ("read,404,4,0,0", "list:2:14: the fifth field, 0: the line has 5 fields, not four: refused: 3, "),
    ("Read,404,4,0", "list:2:1: the first field, Read: a name is written in lower case, without blanks: refused: 5, "),
    ("read\t,404,4,0", "list:2:1: the first field, read?: a name is written in lower case, without blanks: refused: 5, "),
    ("load,404,4,0", "list:2:1: the first field, load: refused: 5, "),
    ("addr,1000,1,0", "list:2:11: the third field, 1: addr does not use it: refused: 6, "),
    ("all,0,5,7", "list:2:7: the third field, 5: all does not use it: refused: 6, "),
    ("all,0,0,7", "list:2:9: the fourth field, 7: all does not use it: refused: 6, "),
    ("read,1000,3,0", "list:2:11: the third field, 3: refused: 7, "),
    ("read,400000,4,0", "list:2:6: the second field, 400000: refused: 8, "),
    ("write,1000,1,100", "list:2:14: the fourth field, 100: refused: 9, "),
    ("addrctx,1000,8,0", "list:2:14: the third field, 8: refused: 11, "),
    ("root,40,0,0", "list:2:6: the second field, 40: refused: 10, "),
];

#[test]
fn places_and_fields_are_named() {
    for (line, says) in PLACES {
        let told = of_lines(&format!("{line}\n"));
        assert_eq!(told.0, 3, "{line}");
        assert!(told.2.starts_with(says), "{line}: {}", told.2);
    }
}

/// What to do about a refusal of lists, as its file has it.
fn advice(number: &str) -> String {
    let sentences = fs::read_to_string(repository().join("scripts/refusals.txt"));
    let sentences = sentences.expect("the sentences");
    let start = format!("list|{number}|");
    let row = sentences.lines().find(|row| row.starts_with(&start));
    let row = row.expect("a row").rsplit('|').next();
    row.expect("what to do").replace('`', "")
}

/// The sentences of the commands are those of their file, and the commands read no page.
#[test]
fn the_sentences_stand_in_one_file() {
    for (line, number) in [
        ("load,0,0,0", "5"),
        ("asid,8,0,0", "11"),
        ("mode,2,0,0", "12"),
        ("mode,1,0,0\nall,0,0,0", "15"),
        ("asid,1,0,0\nroot,0,0,0", "20"),
    ] {
        let told = of_lines(&format!("{line}\n"));
        assert!(told.2.contains(&advice(number)), "{}", told.2);
    }
    for file in [
        "replay",
        "to_lines",
        "to_image",
        "rights",
        "scripts/program.sh",
        "scripts/images.sh",
    ] {
        let text = fs::read_to_string(repository().join(file)).expect("a command");
        assert!(!text.contains("$here/docs"), "{file}");
    }
}

/// No advice asks for another record of the same build: each says what the build has to do, or that nothing may be concluded.
#[test]
fn advice_is_for_the_build() {
    for number in 1..=20 {
        if [18, 19].contains(&number) {
            continue;
        }
        let advice = advice(&number.to_string());
        assert!(
            advice.contains("the build ") || advice.contains("nothing may be concluded"),
            "{number}: {advice}"
        );
        for bad in [
            "each begin from",
            "cut it down",
            "pad it",
            "put mode",
            "put asid",
            "split",
        ] {
            assert!(!advice.contains(bad), "{number}: {advice}");
        }
    }
}

/// What a store of four bytes leaves of an image.
fn stored(mut image: Vec<u8>, at: usize, word: u32) -> Vec<u8> {
    image[at..at + 4].copy_from_slice(&word.to_le_bytes());
    image
}

/// An image of zeros but for these words.
fn image_of(length: usize, words: &[(usize, u32)]) -> Vec<u8> {
    let place = |image, &(at, word): &(usize, u32)| stored(image, at, word);
    words.iter().fold(vec![0; length], place)
}

/// The list of the advice on refusal 1: too long, with one `all` behind which it may be cut, and the stale lines behind that. Cut there, its second part is
/// still not clean. Cut behind the store, as no advice says, no part is stale.
#[test]
fn a_long_list_cut_as_the_advice_says() {
    let reads = "read,1000,4,0\n".repeat(3_000);
    let (first, second) = (format!("{reads}all,0,0,0\n"), format!("{STALE}{reads}"));
    let whole = of_lines(&format!("{first}{second}"));
    assert_eq!(whole.0, 3);
    assert!(whole.2.contains(&advice("1")), "{}", whole.2);
    assert!(advice("1").contains(
        "cut only directly behind an all at which the root is 0, the context 0, the mode kernel and the domain register 0x55555555"
    ));
    let says = "clean: no TLB makes a difference (3001 operations)";
    let told = of_lines(&first);
    assert_eq!((told.0, verdict(&told)), (0, says));
    let told = of_lines(&second);
    let says = "not clean: 3001 lines stale, the first at list:4";
    assert_eq!((told.0, verdict(&told)), (1, says));
    let (before, behind) = second.split_at("read,1000,4,0\nwrite,404,4,4832\n".len());
    let told = of_lines(before);
    assert_eq!(told.0, 0, "{}", told.2);
    let memory = stored(image_a(), 0x404, 0x4832);
    let told = of(&memory, &format!("{NAMES}{behind}"));
    assert_eq!(told.0, 0, "{}", told.2);
}

/// An image of 64 KiB in which the stale list is stale: its level-two table stands at 0x8000. It is refused in both forms, with one status, and no advice says
/// to cut it down: then every access faults, and the verdict says that instead of `clean`.
#[test]
fn a_large_image() {
    let words = [
        (0, 0x8001),
        (0x8000, 0x8812),
        (0x8004, 0x9832),
        (0x9000, 7),
        (0xa000, 8),
    ];
    let image = image_of(0x10000, &words);
    let list = format!("{NAMES}read,1000,4,0\nwrite,4,4,a832\nread,1000,4,0\n");
    let line = |(at, word)| format!("{at:x},{word:x}\n");
    let lines = words.map(line).concat();
    let lines = format!("at,word\n{lines}fffc,0\n");
    for form in [&image, lines.as_bytes()] {
        let told = of(form, &list);
        let says = "not judged: the image image.bin is refused, and the list was not looked at";
        assert_eq!((told.0, verdict(&told)), (3, says));
        let advice = "What to do: this checker cannot judge the item, and nothing may be concluded";
        assert!(told.2.contains(advice), "{}", told.2);
    }
    let told = of(&image[..0x8000], &list);
    let says = "no access went through: 3 of 3 faulted, and no TLB makes a difference to that (3 operations)";
    assert_eq!((told.0, verdict(&told)), (0, says));
}

/// An image whose tables are at 0x4000, with a section at 0 that maps page 1 elsewhere: a list that begins with `root` and `all` is judged by the build's own tables, and
/// one without `all` is refused for what only the words at 0 map.
#[test]
fn tables_that_are_not_at_0() {
    let words = [
        (0, 0x0000_0c02),
        (0x4000, 0x4401),
        (0x4404, 0x3832),
        (0x3000, 7),
    ];
    let image = image_of(0x8000, &words);
    let begun = of(
        &image,
        &format!("{NAMES}root,4000,0,0\nall,0,0,0\nread,1000,4,0\n"),
    );
    let report = "line,op,answer,value\n2,root,ok,0\n3,all,ok,0\n4,read,ok,7\n";
    assert_eq!((begun.0, begun.1.as_str()), (0, report));
    let without = of(&image, &format!("{NAMES}root,4000,0,0\nread,1000,4,0\n"));
    assert_eq!(without.0, 1, "{}", without.2);
}

#[test]
fn help_and_version() {
    for name in ["replay", "to_lines", "to_image", "rights"] {
        let told = |argument| ended(kept(Command::new(repository().join(name))).arg(argument));
        let (status, help, error) = told("--help");
        assert_eq!((status, error.as_str()), (0, ""));
        assert!(
            help.starts_with(&format!("usage: ./{name}")) && help.contains("status"),
            "{help}"
        );
        let (status, version, error) = told("--version");
        assert_eq!((status, error.as_str()), (0, ""));
        assert!(
            version.starts_with(&format!("{name} ")) && version.contains("built"),
            "{version}"
        );
    }
    let gate = |argument| ended(kept(Command::new(repository().join(".ci/run"))).arg(argument));
    let (status, help, _) = gate("--help");
    assert_eq!(status, 0);
    assert!(help.starts_with("usage: .ci/run"), "{help}");
    assert_eq!(gate("--what").0, 2);
}
