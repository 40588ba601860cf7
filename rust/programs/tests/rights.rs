//! The program `rights`, the command `./rights`, and the table in the source: each has the answers of
//! the model.
use model::generate::image_a;
use model::permission::{places, sheet};
use programs::{
    by_shell, closed_pipe, ended, finish, full_device, kept, only_says, prints, program,
    repository, unwritable, with_open_pipe, Folder, Stage, Told,
};
use std::fs;
use std::os::unix::process::ExitStatusExt;
use std::process::Command;

const NOT_WRITTEN: &str = "rights: the answers cannot be written";

/// The program, in a folder, with nothing on standard input.
fn rights(folder: &Folder) -> Command {
    kept(program("rights", folder.path()))
}

/// The answers of the model, as the program tells them.
fn answers() -> Told {
    prints(&sheet())
}

#[test]
fn the_answers() {
    assert_eq!(ended(&mut rights(&Folder::with_image(None))), answers());
}

#[test]
fn an_image_and_arguments_change_nothing() {
    for image in [&b""[..], &image_a()] {
        let folder = Folder::with_image(Some(image));
        for arguments in [&[][..], &["--page"], &["0", "1"], &["image.bin"]] {
            let found = ended(rights(&folder).args(arguments));
            assert_eq!(found, answers(), "{arguments:?}");
        }
        let kept = fs::read(folder.path().join("image.bin")).expect("the image");
        assert!(kept == image, "the image is changed");
    }
}

#[test]
fn standard_input_is_not_read() {
    let folder = Folder::with_image(None);
    let mut closed = by_shell("exec \"$@\" <&-", &rights(&folder));
    assert_eq!(ended(&mut closed), answers());
    // It does not wait for more.
    for bytes in [&b""[..], b"0\n", &[0xFF; 4_096]] {
        assert_eq!(with_open_pipe(&mut rights(&folder), bytes), answers());
    }
}

#[test]
fn answers_that_cannot_be_written() {
    for mut command in unwritable(&rights(&Folder::with_image(None))) {
        only_says(&ended(&mut command), NOT_WRITTEN);
    }
}

/// Where the signal of a closed pipe is not ignored it ends the program, and no other signal does.
#[test]
fn a_closed_pipe() {
    const SIGPIPE: i32 = 13;
    let folder = Folder::with_image(None);
    let child = rights(&folder).stdout(closed_pipe()).spawn();
    let output = finish(child.expect("rights runs"));
    assert_eq!(output.status.signal().unwrap_or(SIGPIPE), SIGPIPE);
}

/// The table that the code looks up: the model's answers in their order, each with its place in words.
#[test]
fn the_table_in_the_source() {
    let source = repository().join("crates/rulings/src/table.rt");
    let source = fs::read_to_string(source).expect("the source of the table");
    let table = source.split_once("pub const TABLE: [u8; 384] = [\n");
    let mut lines = table.expect("the table").1.lines();
    for place in places() {
        let expected = format!("    {}, // {place}", place.answer());
        assert_eq!(lines.next(), Some(expected.as_str()));
    }
    assert_eq!(lines.collect::<Vec<_>>(), ["];"]);
}

/// What the command tells with these arguments.
fn command(arguments: &[&str]) -> Told {
    ended(kept(programs::command("rights")).args(arguments))
}

#[test]
fn the_command() {
    assert_eq!(command(&[]), answers());
    let (status, help, error) = command(&["--help"]);
    assert_eq!((status, error.as_str()), (0, ""));
    assert!(help.contains("usage: ./rights"), "{help}");
}

/// Other forms of the answers are files of the repository.
#[test]
fn the_page_and_the_source() {
    for (argument, file) in [
        ("--page", "docs/PERMISSIONS.md"),
        ("--source", "crates/rulings/src/table.rt"),
    ] {
        let (status, printed, error) = command(&[argument]);
        assert_eq!((status, error.as_str()), (0, ""));
        let expected = fs::read_to_string(repository().join(file)).expect("the file");
        assert!(printed == expected, "{file} is not what {argument} prints");
    }
}

/// The page has a row for each AP and mode, in which the model's answers stand in their order.
#[test]
fn the_rows_of_the_page() {
    let page = fs::read_to_string(repository().join("docs/PERMISSIONS.md")).expect("the page");
    let rows: Vec<&str> = page.lines().filter(|l| l.starts_with("| ")).collect();
    let places: Vec<_> = places().collect();
    assert_eq!(rows.len(), 1 + places.len() / 24);
    for (row, places) in rows[1..].iter().zip(places.chunks(24)) {
        let mode = ["kernel", "user"][places[0].mode as usize];
        let cells: String = places
            .iter()
            .map(|place| format!(" {} |", place.answer()))
            .collect();
        assert_eq!(*row, format!("| {} | {mode} |{cells}", places[0].ap));
    }
}

#[test]
fn unknown_arguments() {
    for arguments in [&["--pages"][..], &[""], &["--page", "--page"], &["a", "b"]] {
        let (status, printed, error) = command(arguments);
        assert_eq!((status, printed.as_str()), (2, ""), "{arguments:?}");
        assert!(error.contains("./rights --help"), "{error}");
    }
}

/// With a program that prints other than 384 answers the command has no result.
#[test]
fn answers_cut_short() {
    let stage = Stage::new("rights");
    let whole = sheet();
    assert_eq!(ended(&mut stage.command(&whole)), answers());
    for wrong in [
        "",
        &whole[..766],
        &whole[..767],
        &format!("{whole}0\n"),
        &whole.replacen('2', "3", 1),
        &whole.replacen("2\n2", "2 2", 1),
    ] {
        for argument in [None, Some("--page"), Some("--source")] {
            let (status, printed, error) = ended(stage.command(wrong).args(argument));
            assert_eq!((status, printed.as_str()), (2, ""), "{wrong}");
            assert!(error.contains("cut short"), "{error}");
        }
    }
}

#[test]
fn output_of_the_command_that_cannot_be_written() {
    for argument in [None, Some("--page"), Some("--source")] {
        let mut command = kept(programs::command("rights"));
        command.args(argument).stdout(full_device());
        let (status, _, error) = ended(&mut command);
        assert_eq!(status, 2, "{argument:?}: {error}");
    }
}
