//! The commands `./to_lines` and `./to_image`, and `./replay` with an image that is given as lines: only
//! a whole output ends with status 0 or 3, or of a report with 1.
use model::generate::image_a;
use model::generate_lines::LINES_OF_A;
use model::lines::NAMES;
use programs::{
    by_shell, closed_pipe, ended, fed, finish, full_device, kept, paused, prints, repository, told,
    with_open_pipe, Folder, Stage, Told,
};
use std::ffi::OsStr;
use std::fs::{self, File, Permissions};
use std::io::Write;
use std::iter::{once, repeat};
use std::os::unix::fs::{symlink, PermissionsExt};
use std::os::unix::net::UnixListener;
use std::path::{Path, PathBuf};
use std::process::Command;

const COMMANDS: [&str; 2] = ["to_lines", "to_image"];
const NO_START: &str = "line,op,answer,value\n0,start,refused,d\n";

/// A command with these arguments and nothing on standard input.
fn command<A: AsRef<OsStr>>(name: &str, arguments: &[A]) -> Command {
    let mut command = kept(programs::command(name));
    command.args(arguments);
    command
}

/// `./replay` on an image and the list of the example. Its second program must be up to date too.
fn replay(image: &Path) -> Command {
    programs::command("to_image");
    command("replay", &[image, &repository().join("examples/list")])
}

/// The report of the example.
fn report() -> String {
    let report = repository().join("crates/replay/stdout");
    fs::read_to_string(report).expect("the report")
}

/// A folder with a file that holds these bytes.
fn folder_with(bytes: impl AsRef<[u8]>) -> (Folder, PathBuf) {
    let folder = Folder::with_image(None);
    let file = folder.path().join("input");
    fs::write(&file, bytes).expect("a file");
    (folder, file)
}

/// The names and these lines.
fn named(lines: &str) -> String {
    format!("{NAMES}{lines}")
}

/// What a command tells of these bytes in a file.
fn of_file(name: &str, bytes: impl AsRef<[u8]>) -> Told {
    let (_folder, file) = folder_with(bytes);
    ended(&mut command(name, &[&file]))
}

/// What a command tells that reads these bytes from a pipe.
fn of_pipe(name: &str, bytes: &[u8]) -> Told {
    told(&fed(&mut command(name, &["-"]), [bytes]))
}

/// What it says on standard error.
fn says(error: &str, words: &str) {
    assert!(error.contains(words), "{words}: {error}");
}

/// That there is no result, and why.
fn no_result((status, printed, error): &Told, why: &str) {
    assert_eq!((*status, printed.as_str()), (2, ""), "{error}");
    says(error, why);
}

/// That there is no image and no report, and why: an image is refused with one status, in either form.
fn no_image((status, printed, error): &Told, why: &str) {
    assert_eq!((*status, printed.as_str()), (3, ""), "{error}");
    says(error, why);
    let verdict = error.lines().last().unwrap_or_default();
    assert!(verdict.starts_with("not judged: the image "), "{error}");
}

/// Image A and its lines, and the command that makes one of the other. No byte of image A is above
/// 0x7f, so that it is a text.
fn both_ways() -> [(&'static str, Vec<u8>, String); 2] {
    let image = String::from_utf8(image_a()).expect("a text");
    let lines = LINES_OF_A.as_bytes().to_vec();
    [
        ("to_lines", image_a(), LINES_OF_A.to_string()),
        ("to_image", lines, image),
    ]
}

#[test]
fn the_example() {
    let examples = repository().join("examples");
    let lines = fs::read_to_string(examples.join("image.lines"));
    assert_eq!(lines.expect("the lines"), LINES_OF_A);
    for (name, _, output) in both_ways() {
        assert!(ended(&mut command::<&str>(name, &[])) == prints(&output));
        let (status, help, error) = ended(&mut command(name, &["--help"]));
        assert_eq!((status, error.as_str()), (0, ""));
        assert!(help.contains(&format!("usage: ./{name} ")), "{help}");
        assert_eq!(ended(&mut command(name, &["-", "-"])).0, 2);
    }
    let (status, printed, error) = ended(&mut replay(&examples.join("image.lines")));
    assert_eq!((status, printed), (1, report()));
    says(&error, "image.lines is given as lines\n");
}

/// Sends a file through a FIFO to a command that reads it.
fn through(fifo: &Path, file: &Path, mut command: Command) -> Told {
    let child = command.spawn().expect("the command runs");
    fs::copy(file, fifo).expect("the file into the FIFO");
    told(&finish(child))
}

#[test]
fn files_streams_and_links() {
    for (name, input, output) in both_ways() {
        let (folder, file) = folder_with(&input);
        let (fifo, link) = (folder.path().join("fifo"), folder.path().join("link"));
        let made = Command::new("mkfifo").arg(&fifo).status();
        assert!(made.expect("mkfifo runs").success());
        symlink(repository().join(name), &link).expect("a link");
        let from_file = File::open(&file).expect("the input");
        for found in [
            of_file(name, &input),
            of_pipe(name, &input),
            ended(command(name, &["-"]).stdin(from_file)),
            ended(kept(Command::new(&link)).arg(&file)),
            through(&fifo, &file, command(name, &[&fifo])),
        ] {
            assert!(found == prints(&output), "{name}: {}", found.2);
        }
        // `./replay` takes either form from each of them.
        let from_file = File::open(&file).expect("the input");
        for (status, printed, error) in [
            ended(&mut replay(&file)),
            told(&fed(&mut replay(Path::new("-")), [&input])),
            told(&fed(&mut replay(Path::new("-")), input.chunks(3))),
            ended(replay(Path::new("-")).stdin(from_file)),
            through(&fifo, &file, replay(&fifo)),
        ] {
            assert_eq!((status, printed), (1, report()), "{error}");
            assert_eq!(error.contains("is given as lines"), name == "to_image");
        }
    }
}

/// What is said of other names than `at,word`.
const OTHER_NAMES: [(&str, &str); 7] = [
    ("", ":1: empty: refused: 18, the first line is not"),
    ("op,a,b,c\n", ":1: op,a,b,c: refused: 18, the first"),
    ("\0\0", ":1: ??: it is no text: is it an image"),
    ("\0\0", ": refused: 18, the first line is not"),
    ("at,word\r\n", ": it ends with a carriage return"),
    ("at,word", ":1: at,word: it has no newline: refused: 18"),
    ("\u{feff}at,word\n", ": it begins with a byte-order mark"),
];

/// Lines that are refused behind the names, what is printed, and what is said.
const REFUSED: [(&str, &str, &str); 12] = [
    ("ffc,1\nzz", "3,12", ":3: zz: the line has 1 field, not"),
    ("0,AB\n", "2,12", ":2:3: the second field, AB: a value"),
    ("0,AB\n", "2,12", "is written in lower case: refused: 18"),
    ("00,AB\n", "2,12", ":2:1: the first field, 00: a value has"),
    (
        "0,0\n4,1\n",
        "2,13",
        ":2:3: the second field, 0: the word is 0, and more follows: refused: 19, ",
    ),
    (
        "4,1\n4,2\n",
        "3,13",
        ":3:1: the first field, 4: it is not above the address before, 4: refused: 19, ",
    ),
    (
        "10,1\nc,2\n",
        "3,13",
        ":3:1: the first field, c: it is not above the address before, 10: refused: 19, ",
    ),
    (
        "c,1\n10,0\n14,0\n",
        "3,13",
        ":3:4: the second field, 0: the word is 0, and more follows: refused: 19, ",
    ),
    (
        "1,1\n",
        "2,13",
        ":2:1: the first field, 1: it is not a multiple of 4: refused: 19, ",
    ),
    ("", "0,13", "input: refused: 19, the length of the"),
    ("", "0,13", "; no line follows the names"),
    ("1000,1\n", "0,13", "the image would have 4100 bytes"),
];

#[test]
fn refused_lines_are_explained() {
    let names = OTHER_NAMES.map(|(text, words)| (text.to_string(), "1,12", words));
    let lines = REFUSED.map(|(lines, refusal, words)| (named(lines), refusal, words));
    for (text, refusal, words) in names.into_iter().chain(lines) {
        let (status, printed, error) = of_file("to_image", &text);
        assert_eq!((status, printed), (3, format!("{refusal}\n")), "{text}");
        says(&error, words);
        assert_eq!(error.lines().count(), 1, "{error}");
    }
    let long = "a".repeat(200);
    let (_, _, error) = of_file("to_image", named(&format!("0,1\n{long}\n")));
    says(
        &error,
        &format!(":3: {}: the line has 1 field", &long[..40]),
    );
}

/// A pipe cannot be read again: the text of the line is not shown.
#[test]
fn refused_lines_of_a_pipe() {
    for (lines, refusal, words) in [
        ("0,1\nzz\n", "3,12\n", ":3: refused: 18, the line is"),
        ("4,1\n0,1\n", "3,13\n", ":3: refused: 19, the address"),
        ("0,1\n", "0,13\n", ": refused: 19, the length"),
    ] {
        let (status, printed, error) = of_pipe("to_image", named(lines).as_bytes());
        assert_eq!((status, printed.as_str()), (3, refusal));
        let words = format!("standard input{words}");
        assert!(error.starts_with(&words), "{error}");
    }
}

/// Of refused lines `./replay` makes no image, and has no report.
#[test]
fn refused_lines_give_no_report() {
    for (lines, _, words) in REFUSED {
        let (_folder, file) = folder_with(named(lines));
        let told = ended(&mut replay(&file));
        no_image(&told, words);
    }
    let told = told(&fed(&mut replay(Path::new("-")), [named("zz\n")]));
    no_image(&told, "standard input:2: refused: 18, ");
}

/// What begins with `at,word` is lines, and nothing else is. An image that begins so is given as lines.
#[test]
fn which_form_it_is() {
    for text in ["at,word", "at,words\nffc,1\n"] {
        let (_folder, file) = folder_with(text);
        let told = ended(&mut replay(&file));
        no_image(&told, "is given as lines");
        says(&told.2, "refused: 18, the first line is not");
    }
    for text in ["", "at,wor", "at,wird\nffc,1\n", " at,word\nffc,1\n"] {
        let (_folder, file) = folder_with(text);
        let (status, printed, error) = ended(&mut replay(&file));
        assert_eq!((status, printed.as_str()), (3, NO_START), "{text}");
        assert!(!error.contains("lines"), "{error}");
    }
    let mut image = vec![0; 4_096];
    image[..7].copy_from_slice(b"at,word");
    let (_folder, file) = folder_with(&image);
    let bytes = ended(&mut replay(&file));
    no_image(&bytes, "input:1: at,word??");
    let lines = ended(&mut command("to_lines", &[&file])).1;
    fs::write(&file, &lines).expect("the lines");
    assert_eq!(ended(&mut replay(&file)).0, 3, "{lines}");
}

#[test]
fn refused_images_are_explained() {
    let zeros = |length| vec![0; length];
    for (image, words) in [
        (zeros(0), "it is empty"),
        (zeros(5_000), "its length, 5000 bytes, is not a"),
        (zeros(36_864), "it has more than 32,768 bytes"),
        (LINES_OF_A.into(), "it begins like lines"),
        (b"op,a,b,c\n".to_vec(), "it begins like a list"),
    ] {
        for (status, printed, error) in [of_file("to_lines", &image), of_pipe("to_lines", &image)] {
            assert_eq!((status, printed.as_str()), (3, "0,13\n"));
            says(&error, words);
        }
    }
}

/// A refusal ends the command, whether more comes or nothing does.
#[test]
fn lines_without_end() {
    let refused = named("zz\n");
    let commands = || (command("to_image", &["-"]), replay(Path::new("-")));
    let (mut to_image, mut replay) = commands();
    let open = with_open_pipe(&mut to_image, refused.as_bytes());
    assert_eq!((open.0, open.1.as_str()), (3, "2,12\n"));
    let open = with_open_pipe(&mut replay, refused.as_bytes());
    no_image(&open, "standard input:2: refused: 18, ");
    let (mut to_image, mut replay) = commands();
    let endless = || once(refused.as_str()).chain(repeat("0,1\n"));
    let flowing = told(&fed(&mut to_image, endless()));
    assert_eq!((flowing.0, flowing.1.as_str()), (3, "2,12\n"));
    let flowing = told(&fed(&mut replay, endless()));
    no_image(&flowing, "standard input:2: refused: 18, ");
}

/// Lines of more than any image are judged to their end.
#[test]
fn many_lines() {
    let mut text = String::from(NAMES);
    for word in 0..100_000 {
        text.push_str(&format!("{:x},ffffffff\n", 4 * word));
    }
    let (_folder, file) = folder_with(&text);
    let (status, printed, error) = ended(&mut command("to_image", &[&file]));
    assert_eq!((status, printed.as_str()), (3, "0,13\n"));
    says(&error, "so the image would have 400000 bytes");
    text.push_str("zz\n");
    fs::write(&file, &text).expect("the lines");
    let (status, printed, error) = ended(&mut command("to_image", &[&file]));
    assert_eq!((status, printed.as_str()), (3, "186a2,12\n"));
    let words = "input:100002: zz: the line has 1 field, not two: refused: 18, ";
    says(&error, words);
    no_image(&ended(&mut replay(&file)), words);
    let told = told(&fed(&mut replay(Path::new("-")), [&text]));
    no_image(&told, "standard input:100002: refused: 18, ");
}

#[test]
fn inputs_that_cannot_be_opened() {
    let (folder, closed) = folder_with(LINES_OF_A);
    let socket = folder.path().join("socket");
    let _bound = UnixListener::bind(&socket).expect("a socket");
    fs::set_permissions(&closed, Permissions::from_mode(0o000)).expect("its mode");
    for name in COMMANDS {
        let told = |path: &Path| ended(&mut command(name, &[path]));
        no_result(&told(Path::new("no-file")), "no-file is not there");
        no_result(&told(folder.path()), "is a folder");
        no_result(&told(&socket), "socket cannot be opened");
        // There are users who can read every file.
        if File::open(&closed).is_err() {
            no_result(&told(&closed), "input cannot be read");
        }
        let mut without = by_shell("exec \"$@\" <&-", &command(name, &["-"]));
        no_result(&ended(&mut without), "standard input, which is closed");
    }
}

/// An input that cannot be read to its end gives no result: neither where what came of it would be
/// accepted nor where it would be refused.
#[test]
fn inputs_that_pause() {
    let (cut, unread) = ("was cut short", "was not read to its end");
    for (mut command, bytes, why) in [
        (command("to_lines", &["-"]), vec![0; 4_096], unread),
        (command("to_image", &["-"]), named("ffc,1\n").into(), cut),
        (replay(Path::new("-")), named("ffc,1\n").into(), unread),
        (replay(Path::new("-")), named("ffc").into(), unread),
        (replay(Path::new("-")), b"at,".to_vec(), unread),
    ] {
        let (mut ours, theirs) = paused();
        ours.write_all(&bytes).expect("the first bytes");
        no_result(&ended(command.stdin(theirs)), why);
    }
}

#[test]
fn outputs_that_cannot_be_written() {
    for name in COMMANDS {
        let command = || command::<&str>(name, &[]);
        assert_eq!(ended(command().stdout(full_device())).0, 2);
        assert_eq!(ended(command().stdout(closed_pipe())).0, 2);
        assert_eq!(ended(&mut by_shell("exec \"$@\" >&-", &command())).0, 2);
    }
    // A limit on the size of files cuts the image short, as a full disk does: what is left has the length of an image.
    let limited = "trap '' XFSZ; ulimit -f 16; exec \"$@\"";
    let (folder, lines) = folder_with(LINES_OF_A);
    for command in [command("to_image", &[&lines]), replay(&lines)] {
        let mut limited = by_shell(limited, &command);
        limited.current_dir(folder.path());
        no_result(&ended(&mut limited), "the image was cut short");
    }
}

/// A stage of a command, with image A and its lines.
fn stage(name: &'static str) -> Stage {
    let stage = Stage::new(name);
    fs::write(stage.at("image.bin"), image_a()).expect("the image");
    fs::write(stage.at("image.lines"), LINES_OF_A).expect("the lines");
    stage
}

#[test]
fn lines_cut_short() {
    let stage = stage("to_lines");
    let staged = |text: &str| ended(stage.command(text).arg(stage.at("image.bin")));
    assert_eq!(staged(LINES_OF_A), prints(LINES_OF_A));
    assert_eq!(staged("0,13\n").0, 3);
    for length in [0, 7, 8, 14, 44, 45, 59, 63, 64, 65] {
        no_result(&staged(&LINES_OF_A[..length]), "cut short");
    }
    for wrong in [
        "0,13",
        "0,13\n\n",
        "0,12\n",
        "at,word\n3ffc,0\n",
        "at,word\n7ffc\n",
        "0,401\n7ffc,0\n",
        "at,word\n7ffc,0\n8000,1\n",
    ] {
        no_result(&staged(wrong), "cut short");
    }
}

#[test]
fn images_cut_short() {
    let stage = stage("to_image");
    let staged = |text: &[u8]| ended(stage.command(text).arg(stage.at("image.lines")));
    for length in [4_096, 8_192, 32_768] {
        assert_eq!(staged(&vec![0; length]).0, 0, "{length} bytes");
    }
    for length in [0, 1, 12, 4_095, 4_097, 8_191, 32_767, 36_864] {
        no_result(&staged(&vec![0; length]), "cut short");
    }
    for refusal in ["1,12\n", "7,13\n", "0,13\n", "fedcba98,12\n"] {
        let (status, printed, _) = staged(refusal.as_bytes());
        assert_eq!((status, printed.as_str()), (3, refusal));
    }
    for wrong in [
        "7,12",
        "7,1",
        "7,",
        "\n",
        "7,1\n",
        "7,14\n",
        "0,12\n",
        "07,12\n",
        "A,12\n",
        "7,12\n\n",
        "7,12\n7,12\n",
        "123456789,12\n",
    ] {
        no_result(&staged(wrong.as_bytes()), "cut short");
    }
}

/// A program that says something beside its image, or that ends with a status, gives no result.
#[test]
fn a_program_that_fails() {
    let stage = stage("to_image");
    for (more, why) in [
        ("echo 'to_image: the image' >&2", "to_image: the image\n"),
        ("exit 3", "the program ended with status 3"),
    ] {
        stage.add_program("to_image", &format!("cat \"$PRINTS\"; {more}"));
        let mut command = stage.command(image_a());
        no_result(&ended(command.arg(stage.at("image.lines"))), why);
    }
}

/// `./replay` needs the program `to_image` where the image is given as lines, and only there.
#[test]
fn the_second_program() {
    let (stage, report) = (stage("replay"), "line,op,answer,value\n");
    fs::write(stage.at("list"), "op,a,b,c\n").expect("the list");
    let staged = |image: &str| {
        let files = [stage.at(image), stage.at("list")];
        let (status, printed, error) = ended(stage.command(report).args(files));
        assert_eq!(printed, if status == 0 { report } else { "" }, "{error}");
        (status, printed, error)
    };
    assert_eq!(staged("image.bin").0, 0);
    no_result(&staged("image.lines"), "to_image' built no program");
    for (program, why) in [
        ("head -c 5000 /dev/zero", "replay: the image was cut short"),
        ("exit 1", "replay: the program ended with status 1"),
    ] {
        stage.add_program("to_image", program);
        no_result(&staged("image.lines"), why);
    }
    stage.add_program("to_image", "echo 3,12");
    no_image(&staged("image.lines"), "image.lines:3: ");
    stage.add_program("to_image", "head -c 4096 /dev/zero");
    assert_eq!(staged("image.lines").0, 0);
    let refuses = "echo \"rt: ${PWD##*/} NOT PROVED\" >&2; exit 1";
    stage.script("kit/bin/rt", refuses);
    stage.add_source("newer");
    stage.mark("replay");
    assert_eq!(staged("image.bin").0, 0);
    no_result(&staged("image.lines"), "rt: to_image NOT PROVED");
}
