//! Streams for a program: ones that fail, ones that stay open, and ones that bring their bytes in parts.
use crate::{by_shell, finish, told, Told};
use std::fs::File;
use std::io::{ErrorKind, Write};
use std::os::fd::OwnedFd;
use std::os::unix::net::UnixStream;
use std::process::{Child, ChildStdin, Command, Output, Stdio};
use std::thread;

/// A device that is full.
pub fn full_device() -> File {
    let full = File::options().write(true).open("/dev/full");
    full.expect("/dev/full")
}

/// A connection whose other end is closed.
pub fn closed_pipe() -> OwnedFd {
    let (_, theirs) = UnixStream::pair().expect("a connection");
    theirs.into()
}

/// The two ends of a connection, of which the second does not wait where nothing has come.
pub fn paused() -> (UnixStream, OwnedFd) {
    let (ours, theirs) = UnixStream::pair().expect("a connection");
    theirs.set_nonblocking(true).expect("no waiting");
    (ours, theirs.into())
}

/// A command where nothing can be written: on a full device, with standard output closed, and on a
/// closed pipe whose signal is ignored.
pub fn unwritable(command: &Command) -> [Command; 3] {
    let mut pipe = by_shell("trap '' PIPE; exec \"$@\"", command);
    pipe.stdout(closed_pipe());
    let mut full = by_shell("exec \"$@\"", command);
    full.stdout(full_device());
    [full, by_shell("exec \"$@\" >&-", command), pipe]
}

/// Starts a command with a pipe on standard input.
pub fn started(command: &mut Command) -> (Child, ChildStdin) {
    let child = command.stdin(Stdio::piped()).spawn();
    let mut child = child.expect("the command runs");
    let pipe = child.stdin.take().expect("its standard input");
    (child, pipe)
}

/// Writes parts to a process, one at a time, as long as it has not ended.
pub fn feed<T: AsRef<[u8]>>(pipe: &mut ChildStdin, parts: impl IntoIterator<Item = T>) {
    for part in parts {
        if let Err(error) = pipe.write_all(part.as_ref()) {
            assert_eq!(error.kind(), ErrorKind::BrokenPipe);
            return;
        }
    }
}

/// What a command tells that is brought these bytes by a pipe, which stays open.
pub fn with_open_pipe(command: &mut Command, bytes: &[u8]) -> Told {
    let (child, mut pipe) = started(command);
    feed(&mut pipe, [bytes]);
    let told = told(&finish(child));
    drop(pipe);
    told
}

/// The output of a command that is brought these parts by a pipe.
pub fn fed<T: AsRef<[u8]>>(
    command: &mut Command,
    parts: impl IntoIterator<Item = T> + Send,
) -> Output {
    let (child, mut pipe) = started(command);
    thread::scope(|scope| {
        scope.spawn(move || feed(&mut pipe, parts));
        finish(child)
    })
}
