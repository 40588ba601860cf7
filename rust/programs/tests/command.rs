//! The command `./replay`: only a whole report ends with status 0, 1 or 3.
use model::generate::image_a;
use programs::{
    closed_pipe, ended, finish, full_device, kept, paused, repository, told, with_open_pipe,
    Folder, Stage, Told,
};
use std::fs::{self, File};
use std::io::Write;
use std::os::unix::fs::symlink;
use std::path::{Path, PathBuf};
use std::process::Command;

const NAMES: &str = "op,a,b,c\n";
const HEADER: &str = "line,op,answer,value\n";

/// The command, with these arguments and nothing on standard input.
fn command(arguments: &[&Path]) -> Command {
    let mut command = kept(programs::command("replay"));
    command.args(arguments);
    command
}

/// A folder with image A and a list.
fn folder_with(list: &str) -> (Folder, PathBuf, PathBuf) {
    let folder = Folder::with_image(Some(&image_a()));
    let (image, file) = (folder.path().join("image.bin"), folder.path().join("list"));
    fs::write(&file, list).expect("the list");
    (folder, image, file)
}

fn of_list(list: &str) -> Told {
    let (_folder, image, file) = folder_with(list);
    ended(&mut command(&[&image, &file]))
}

fn with_names(lines: &str) -> String {
    format!("{NAMES}{lines}")
}

/// A list of `mode,0,0,0` with a stale read of page 1 at line 3003.
fn stale_at_3003() -> String {
    let before = "mode,0,0,0\n".repeat(3_000);
    with_names(&format!("{before}write,404,4,4832\nread,1000,4,0\n"))
}

#[test]
fn each_status() {
    assert_eq!(of_list(&with_names("read,1000,4,0\n")).0, 0);
    assert_eq!(of_list(NAMES).0, 0);
    assert_eq!(of_list(&stale_at_3003()).0, 1);
    assert_eq!(of_list(&with_names("read,1000,3,0\n")).0, 3);
    assert_eq!(of_list("").0, 3);
    let (_folder, image, list) = folder_with(NAMES);
    assert_eq!(ended(&mut command(&[&image, Path::new("no-list")])).0, 2);
    assert_eq!(ended(&mut command(&[Path::new("no-image"), &list])).0, 2);
    assert_eq!(ended(&mut command(&[&image])).0, 2);
    let (status, help, _) = ended(&mut command(&[Path::new("--help")]));
    assert_eq!(status, 0);
    assert!(help.contains("  status  verdict\n"));
}

#[test]
fn refusals_are_explained() {
    let more = "asid,8,0,0\n".repeat(11);
    let list = with_names(&format!("write,404,4,4832\nread,1000,4,0\n{more}"));
    let (status, _, error) = of_list(&list);
    assert_eq!(status, 1);
    let told: Vec<&str> = error.lines().collect();
    assert_eq!(told.len(), 13);
    assert!(told[0].contains("list:3: read,1000,4,0: refused: 16, the page is stale"));
    assert!(told[9].contains("list:12:6: the second field, 8: refused: 11, "));
    assert_eq!(told[10], "replay: and 2 more");
    let counts = "replay: lines carried out: 1, of these faulted: 0; lines refused: 12";
    assert_eq!(told[11], counts);
    assert!(told[12].starts_with("not clean: 1 line stale, the first at "));
    assert!(told[12].ends_with("list:3"));
}

#[test]
fn a_stale_fetch_is_explained() {
    let fetch = "fetch,1000,0,0\n";
    assert_eq!(of_list(&with_names(fetch)).0, 0);
    let (status, report, error) = of_list(&with_names(&format!("write,404,4,3833\n{fetch}")));
    let expected = format!("{HEADER}2,write,ok,0\n3,fetch,refused,10\n");
    assert_eq!((status, report), (1, expected));
    assert!(
        error.contains("list:3: fetch,1000,0,0: refused: 16, "),
        "{error}"
    );
}

/// A closed domain is a fault, and no refusal; a field of 2 is one, and explained.
#[test]
fn a_domain_register_with_a_field_of_2_is_explained() {
    let closed = of_list(&with_names("domain,0,0,0\nread,1000,4,0\n"));
    let report = format!("{HEADER}2,domain,ok,0\n3,read,fault,b\n");
    assert_eq!((closed.0, closed.1), (0, report));
    let (status, report, error) = of_list(&with_names("domain,55555556,0,0\n"));
    let expected = format!("{HEADER}2,domain,refused,11\n");
    assert_eq!((status, report), (3, expected));
    assert!(
        error.contains("list:2:8: the second field, 55555556: refused: 17, "),
        "{error}"
    );
}

/// A root under another context than 0 is refused, though the map stays the same, and explained;
/// through context 0 it is not.
#[test]
fn a_root_under_another_context_is_explained() {
    let (status, report, error) = of_list(&with_names("asid,1,0,0\nroot,0,0,0\n"));
    let expected = format!("{HEADER}2,asid,ok,0\n3,root,refused,14\n");
    assert_eq!((status, report), (3, expected));
    assert!(
        error.contains("list:3: root,0,0,0: refused: 20, "),
        "{error}"
    );
    let through_0 = "asid,1,0,0\nasid,0,0,0\nroot,0,0,0\nasid,1,0,0\n";
    let (status, _, error) = of_list(&with_names(through_0));
    assert_eq!(status, 0, "{error}");
}

#[test]
fn common_mistakes_are_named() {
    for (list, says) in [
        ("op,a,b,c\r\nall,0,0,0\r\n", "carriage return"),
        ("op,a,b,c\nall,0,0,0\r\n", "carriage return"),
        ("\u{feff}op,a,b,c\n", "byte-order mark"),
        ("op,a,b,c\nread,ABC,4,0\n", "lower case"),
        ("op,a,b,c\nREAD,1000,4,0\n", "lower case"),
        ("op,a,b,c\nFETCH,1000,0,0\n", "lower case"),
        ("op,a,b,c\nDomain,0,0,0\n", "lower case"),
        ("\0\0\0\0", "swapped"),
    ] {
        let (status, _, error) = of_list(list);
        assert_eq!(status, 3, "{list}");
        assert!(error.contains(says), "{list}: {error}");
    }
    let (_folder, image, list) = folder_with(NAMES);
    let (status, _, error) = ended(&mut command(&[&list, &image]));
    assert_eq!(status, 3);
    assert!(error.contains("swapped"), "{error}");
    for (length, says) in [
        (0, "empty"),
        (5_000, "5000 bytes"),
        (36_864, "more than 32,768"),
    ] {
        fs::write(&image, vec![0; length]).expect("the image");
        let (status, report, error) = ended(&mut command(&[&image, &list]));
        assert_eq!(
            (status, report.as_str()),
            (3, "line,op,answer,value\n0,start,refused,d\n")
        );
        assert!(error.contains(says), "{error}");
    }
}

#[test]
fn streams_and_links() {
    let (folder, image, list) = folder_with(&with_names("read,1000,4,0\n"));
    let report = "line,op,answer,value\n2,read,ok,12345678\n";
    let (dash, link) = (Path::new("-"), folder.path().join("link"));
    symlink(repository().join("replay"), &link).expect("a link");
    let mut linked = kept(Command::new(&link));
    linked.args([&image, &list]);
    for command in [
        &mut linked,
        command(&[&image, dash]).stdin(File::open(&list).expect("the list")),
        command(&[dash, &list]).stdin(File::open(&image).expect("the image")),
    ] {
        let (status, printed, error) = ended(command);
        assert_eq!((status, printed.as_str()), (0, report), "{error}");
    }
    let fifo = folder.path().join("fifo");
    let made = Command::new("mkfifo").arg(&fifo).status();
    assert!(made.expect("mkfifo runs").success());
    for (arguments, file) in [([&image, &fifo], &list), ([&fifo, &list], &image)] {
        let arguments = arguments.map(PathBuf::as_path);
        let child = command(&arguments).spawn().expect("the command runs");
        fs::copy(file, &fifo).expect("the file into the FIFO");
        assert_eq!(told(&finish(child)).1, report);
    }
    assert_eq!(ended(&mut command(&[dash, dash])).0, 2);
}

#[test]
fn a_refused_start_with_an_open_pipe() {
    let (_folder, image, _list) = folder_with(NAMES);
    fs::write(&image, vec![0; 5_000]).expect("the image");
    let told = with_open_pipe(&mut command(&[&image, Path::new("-")]), b"");
    assert_eq!(told.0, 3);
}

#[test]
fn a_list_that_pauses() {
    let (_folder, image, _list) = folder_with(NAMES);
    let (mut ours, theirs) = paused();
    ours.write_all(b"op,a,b,c\nread,1000,4,0\n").expect("lines");
    let (status, report, error) = ended(command(&[&image, Path::new("-")]).stdin(theirs));
    assert_eq!((status, report.as_str()), (2, ""), "{error}");
}

#[test]
fn output_that_cannot_be_written() {
    let (folder, image, list) = folder_with(&stale_at_3003());
    let (status, _, _) = ended(command(&[&image, &list]).stdout(full_device()));
    assert_eq!(status, 2);
    let (status, _, _) = ended(command(&[&image, &list]).stdout(closed_pipe()));
    assert_eq!(status, 2);
    // A limit on the size of files cuts the report short, as a full disk does.
    let script = "trap '' XFSZ; ulimit -f 40; exec \"$@\" >report";
    let mut limited = kept(Command::new("bash"));
    limited
        .args(["-c", script, "bash"])
        .arg(repository().join("replay"))
        .args([&image, &list])
        .current_dir(folder.path());
    assert_eq!(ended(&mut limited).0, 2);
}

/// A stage of the command, with image A.
fn stage() -> Stage {
    let stage = Stage::new("replay");
    fs::write(stage.at("image.bin"), image_a()).expect("the image");
    stage
}

/// Runs the command of a stage on a list, with a program that prints this report.
fn staged(stage: &Stage, list: &str, report: &str) -> Told {
    fs::write(stage.at("list"), list).expect("the list");
    let files = [stage.at("image.bin"), stage.at("list")];
    ended(stage.command(report).args(files))
}

#[test]
fn a_report_cut_short() {
    let stage = stage();
    let list = with_names("mode,0,0,0\nall,0,0,0\n");
    let whole = format!("{HEADER}2,mode,ok,0\n3,all,ok,0\n");
    assert_eq!(staged(&stage, &list, &whole).0, 0);
    for length in 0..whole.len() {
        let (status, printed, _) = staged(&stage, &list, &whole[..length]);
        assert_eq!((status, printed.as_str()), (2, ""), "{length} bytes");
    }
    for wrong in [
        "2,mode,ok,0\n3,all,ok,0\n".to_string(),
        format!("{HEADER}3,all,ok,0\n2,mode,ok,0\n"),
        format!("{HEADER}2,mode,ok,0\n3,all,ok,0\n4,all,ok,0\n"),
        format!("{HEADER}1,-,refused,2\n3,all,ok,0\n"),
    ] {
        assert_eq!(staged(&stage, &list, &wrong).0, 2, "{wrong}");
    }
    for refused in ["2,-,refused,3\n", "0,start,refused,d\n"] {
        let report = format!("{HEADER}{refused}");
        assert_eq!(staged(&stage, &list, &report).0, 3, "{report}");
    }
}

#[test]
fn a_failed_build() {
    let stage = stage();
    let report = format!("{HEADER}2,mode,ok,0\n");
    assert_eq!(staged(&stage, &with_names("mode,0,0,0\n"), &report).0, 0);
    stage.script("kit/bin/rt", "echo 'rt: replay NOT PROVED' >&2; exit 1");
    stage.add_source("newer");
    let (status, printed, error) = staged(&stage, &with_names("mode,0,0,0\n"), &report);
    assert_eq!((status, printed.as_str()), (2, ""));
    assert!(error.contains("NOT PROVED"), "{error}");
}
