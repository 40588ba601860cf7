//! The program where a read or the writing fails: it says so on standard error, and what was not read to its end gives no report.
use model::generate::image_a;
use programs::{
    by_shell, ended, finish, full_device, kept, only_says, paused, program, with_open_pipe, Folder,
};
use std::io::Write;
use std::os::fd::OwnedFd;
use std::os::unix::net::UnixStream;
use std::process::Command;

const LIST: &[u8] = b"op,a,b,c\nread,1000,4,0\n";
const NOT_READ: &str = "replay: the list was not read to its end";

/// `replay` on image A, with its output and errors kept.
fn replay(folder: &Folder) -> Command {
    kept(program("replay", folder.path()))
}

#[test]
fn a_full_device() {
    let folder = Folder::with_image(Some(&image_a()));
    let told = ended(replay(&folder).stdout(full_device()));
    only_says(&told, "replay: the report cannot be written");
}

#[test]
fn a_list_that_pauses() {
    for bytes in [b"".as_slice(), LIST, b"op,a"] {
        let folder = Folder::with_image(Some(&image_a()));
        let (mut ours, theirs) = paused();
        ours.write_all(bytes).expect("the first lines");
        only_says(&ended(replay(&folder).stdin(theirs)), NOT_READ);
    }
}

#[test]
fn a_list_that_pauses_and_ends_in_time() {
    let folder = Folder::with_image(Some(&image_a()));
    let (mut ours, theirs) = UnixStream::pair().expect("a connection");
    ours.write_all(&LIST[..12]).expect("the first lines");
    let child = replay(&folder).stdin(OwnedFd::from(theirs)).spawn();
    ours.write_all(&LIST[12..]).expect("the last lines");
    drop(ours);
    let output = finish(child.expect("replay runs"));
    let report = String::from_utf8_lossy(&output.stdout);
    assert_eq!(report, "line,op,answer,value\n2,read,ok,12345678\n");
    assert_eq!(output.stderr, b"");
}

#[test]
fn a_closed_standard_input() {
    let folder = Folder::with_image(Some(&image_a()));
    let mut command = by_shell("exec \"$@\" <&-", &replay(&folder));
    only_says(&ended(&mut command), NOT_READ);
}

#[test]
fn a_refused_start_with_an_open_pipe() {
    let odd = vec![0; 5_000];
    for image in [None, Some(odd.as_slice())] {
        let folder = Folder::with_image(image);
        let (_, report, _) = with_open_pipe(&mut replay(&folder), b"");
        assert_eq!(report, "line,op,answer,value\n0,start,refused,d\n");
    }
}

#[test]
fn an_image_of_which_no_byte_can_be_read() {
    let folder = Folder::with_image(None);
    std::fs::create_dir(folder.path().join("image.bin")).expect("a folder");
    let child = replay(&folder).spawn();
    let output = finish(child.expect("replay runs"));
    let report = String::from_utf8_lossy(&output.stdout);
    assert_eq!(report, "line,op,answer,value\n0,start,refused,d\n");
}
