//! Runs the built programs of the repository under the toolchain's loader and C library, and its
//! commands.
mod stage;
mod streams;

pub use stage::Stage;
pub use streams::{
    closed_pipe, fed, feed, full_device, paused, started, unwritable, with_open_pipe,
};

use std::path::{Path, PathBuf};
use std::process::{Child, Command, Output, Stdio};
use std::sync::atomic::{AtomicUsize, Ordering};
use std::sync::Mutex;
use std::thread::sleep;
use std::time::{Duration, Instant};
use std::{env, fs, process};

/// The toolchain's folder: `RATTLE_HOME`, or two levels above the `rt` on PATH, links followed.
fn kit() -> PathBuf {
    if let Some(home) = env::var_os("RATTLE_HOME") {
        return PathBuf::from(home);
    }
    let path = env::var_os("PATH").expect("PATH is not set");
    let rt = env::split_paths(&path)
        .map(|folder| folder.join("rt"))
        .find(|file| file.is_file())
        .expect("rt is not on PATH");
    let rt = rt.canonicalize().expect("rt's links lead nowhere");
    rt.ancestors()
        .nth(2)
        .expect("rt stands in no folder of a toolchain")
        .to_path_buf()
}

/// The repository's folder.
pub fn repository() -> PathBuf {
    Path::new(env!("CARGO_MANIFEST_DIR"))
        .ancestors()
        .nth(2)
        .expect("the repository is above rust/")
        .to_path_buf()
}

/// Whether a program is built of the sources of a repository, as its commands judge it.
fn is_built(here: &Path, name: &str) -> bool {
    let script = ". \"$here/scripts/program.sh\"; is_built \"$name\" \"$(sum_of_sources)\"";
    let status = Command::new("bash")
        .args(["-c", script])
        .env("here", here)
        .env("name", name)
        .status();
    status.expect("bash runs").success()
}

/// A command at the repository's top, which has the name of its program. It must not have to build
/// that first.
pub fn command(name: &str) -> Command {
    static BUILT: Mutex<Vec<String>> = Mutex::new(Vec::new());
    let here = repository();
    let mut built = BUILT.lock().expect("the programs that are built");
    if !built.iter().any(|other| other == name) {
        let says = format!("the program is not up to date: run ./{name}");
        assert!(is_built(&here, name), "{says}");
        built.push(name.to_string());
    }
    Command::new(here.join(name))
}

/// A built program, to be run in `folder`.
pub fn program(name: &str, folder: &Path) -> Command {
    let libraries = kit().join("toolchain/lib");
    let built = repository()
        .join("target/bin")
        .join(name)
        .canonicalize()
        .unwrap_or_else(|_| panic!("{name} is not built: run ./{name}"));
    let mut command = Command::new(libraries.join("ld-linux-x86-64.so.2"));
    command
        .arg("--library-path")
        .arg(libraries)
        .arg(built)
        .current_dir(folder);
    command
}

/// A folder of its own for a run, removed when it is dropped.
pub struct Folder(PathBuf);

impl Folder {
    /// A folder that holds `image.bin`, if there is one.
    pub fn with_image(image: Option<&[u8]>) -> Folder {
        static NEXT: AtomicUsize = AtomicUsize::new(0);
        let n = NEXT.fetch_add(1, Ordering::Relaxed);
        let folder = env::temp_dir().join(format!("programs-{}-{n}", process::id()));
        fs::create_dir_all(&folder).expect("a temporary folder");
        if let Some(bytes) = image {
            fs::write(folder.join("image.bin"), bytes).expect("the image");
        }
        Folder(folder)
    }

    pub fn path(&self) -> &Path {
        &self.0
    }
}

impl Drop for Folder {
    fn drop(&mut self) {
        let _ = fs::remove_dir_all(&self.0);
    }
}

/// A command with nothing on standard input, whose output and errors are kept.
pub fn kept(mut command: Command) -> Command {
    command
        .stdin(Stdio::null())
        .stdout(Stdio::piped())
        .stderr(Stdio::piped());
    command
}

/// A command as a shell runs it by a script that says `exec "$@"`, in the same folder.
pub fn by_shell(script: &str, inner: &Command) -> Command {
    let mut command = Command::new("sh");
    command
        .args(["-c", script, "sh"])
        .arg(inner.get_program())
        .args(inner.get_args());
    if let Some(folder) = inner.get_current_dir() {
        command.current_dir(folder);
    }
    kept(command)
}

/// Waits for a process that must end by itself, and returns what it wrote, which is less than a pipe holds. One that waits for
/// input that never comes is ended, and fails.
pub fn finish(mut child: Child) -> Output {
    let began = Instant::now();
    while child.try_wait().expect("a process").is_none() {
        if began.elapsed() > Duration::from_secs(60) {
            child.kill().expect("a process");
            panic!("it waits for input that it does not need");
        }
        sleep(Duration::from_millis(5));
    }
    child.wait_with_output().expect("its output")
}

/// Status (-1 for a process that a signal ended), standard output and standard error.
pub type Told = (i32, String, String);

/// What a process that ended has told.
pub fn told(output: &Output) -> Told {
    (
        output.status.code().unwrap_or(-1),
        String::from_utf8_lossy(&output.stdout).into_owned(),
        String::from_utf8_lossy(&output.stderr).into_owned(),
    )
}

/// Runs a command that must end by itself.
pub fn ended(command: &mut Command) -> Told {
    told(&finish(command.spawn().expect("the command runs")))
}

/// What a process tells that prints this and says nothing.
pub fn prints(text: &str) -> Told {
    (0, text.to_string(), String::new())
}

/// That a process ended by itself, printed nothing, and said this first on standard error.
pub fn only_says((status, printed, error): &Told, says: &str) {
    assert_ne!(*status, -1, "a signal ended it");
    assert_eq!(printed, "");
    assert!(error.starts_with(says), "standard error: {error}");
}

/// Runs a program in a folder with a file on standard input, and returns what it printed.
fn printed(name: &str, folder: &Folder, input: &Path) -> Vec<u8> {
    let output = program(name, folder.path())
        .stdin(fs::File::open(input).expect("the input"))
        .output()
        .unwrap_or_else(|error| panic!("{name}: {error}"));
    let error = String::from_utf8_lossy(&output.stderr);
    assert_eq!((output.status.code(), &*error), (Some(0), ""), "{name}");
    output.stdout
}

/// The same with these bytes on standard input.
fn printed_on(name: &str, folder: &Folder, bytes: &[u8]) -> Vec<u8> {
    let input = folder.path().join("input");
    fs::write(&input, bytes).expect("the input");
    printed(name, folder, &input)
}

/// Runs `replay` in a folder on the list in a file, and returns what it printed.
pub fn replay_in(folder: &Folder, list: &Path) -> Vec<u8> {
    printed("replay", folder, list)
}

/// Runs `replay` on a list and, where there is one, an image, and returns what it printed.
pub fn replay(list: &[u8], image: Option<&[u8]>) -> Vec<u8> {
    printed_on("replay", &Folder::with_image(image), list)
}

/// Runs `to_lines` on an image, where there is one, and returns what it printed.
pub fn to_lines(image: Option<&[u8]>) -> Vec<u8> {
    printed(
        "to_lines",
        &Folder::with_image(image),
        Path::new("/dev/null"),
    )
}

/// Runs `to_image` on lines, and returns what it printed.
pub fn to_image(lines: &[u8]) -> Vec<u8> {
    printed_on("to_image", &Folder::with_image(None), lines)
}
