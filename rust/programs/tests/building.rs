//! The build behind a command, with a toolchain that proves nothing and builds what it is told to.
use programs::{ended, finish, kept, prints, repository, told, Stage, Told};
use std::fs;
use std::process::Command;
use std::thread::sleep;
use std::time::Duration;

const REPORT: &str = "line,op,answer,value\n2,mode,ok,0\n";

/// What the toolchain of the stage does: it notes each call to build, fails beside another, says which crate it is at as the real one does,
/// takes a second for each if it is to be slow, and builds what its own stamp does not say is built already. It is called in the
/// program's crate, and its stamp, like the real one's, holds the sum of the program.
const TOOLCHAIN: &str = "[ \"$1\" = run ] || { echo kit-7; exit; }
crate=${PWD##*/}
cd ../..
echo called >>calls
mkdir busy || exit 1
at() { echo \"rt: chose --jobs 2 for $1\" >&2; [ ! -e slow ] || sleep 1; }
at first
at second
mkdir -p crates/$crate/out
built=crates/$crate/out/$crate
stamp() { cksum <$built; }
[ -e $built ] && [ \"$(cat $built.stamp)\" = \"$(stamp)\" ] || { cp made $built; stamp >$built.stamp; }
rmdir busy";

/// A stage of `./replay` whose program is not built.
fn unbuilt() -> Stage {
    let stage = Stage::new("replay");
    fs::write(stage.at("image.bin"), vec![0; 4_096]).expect("the image");
    fs::write(stage.at("list"), "op,a,b,c\nmode,0,0,0\n").expect("the list");
    fs::rename(stage.at("target/bin/replay"), stage.at("made")).expect("the program");
    fs::remove_dir_all(stage.at("target")).expect("what was built");
    fs::remove_dir_all(stage.crate_of("replay").join("out")).expect("what was built");
    stage.script("kit/bin/rt", TOOLCHAIN);
    stage
}

/// The same with a toolchain that takes its time.
fn slowly_built() -> Stage {
    let stage = unbuilt();
    fs::write(stage.at("slow"), "").expect("a mark");
    stage
}

fn command(stage: &Stage) -> Command {
    let mut command = stage.command(REPORT);
    command.args([stage.at("image.bin"), stage.at("list")]);
    command
}

fn good(told: &Told) {
    assert_eq!((told.0, told.1.as_str()), (0, REPORT), "{}", told.2);
}

/// How often the toolchain was called to build.
fn calls(stage: &Stage) -> usize {
    fs::read_to_string(stage.at("calls")).map_or(0, |calls| calls.lines().count())
}

#[test]
fn two_commands_at_once() {
    let stage = slowly_built();
    let both = [command(&stage).spawn(), command(&stage).spawn()];
    let both = both.map(|child| told(&finish(child.expect("the command runs"))));
    both.iter().for_each(good);
    assert_eq!(calls(&stage), 1);
    let waits = both.iter().filter(|told| told.2.contains("waits for it"));
    assert_eq!(waits.count(), 1);
}

/// A build whose command was ended goes on, and the next command waits for it.
#[test]
fn a_build_without_its_command() {
    let stage = slowly_built();
    let mut child = command(&stage).spawn().expect("the command runs");
    while calls(&stage) == 0 {
        sleep(Duration::from_millis(5));
    }
    child.kill().expect("the command is ended");
    child.wait().expect("it has ended");
    let told = ended(&mut command(&stage));
    good(&told);
    assert!(told.2.contains("waits for it"), "{}", told.2);
}

#[test]
fn the_progress_is_told() {
    let told = ended(&mut command(&slowly_built()));
    good(&told);
    let told: Vec<&str> = told.2.lines().collect();
    let (first, second) = (told[1], told[2]);
    assert!(first.starts_with("replay: proving 1 of "), "{first}");
    assert!(first.ends_with(": first"), "{first}");
    assert!(second.starts_with("replay: proving 2 of "), "{second}");
    assert!(second.ends_with(": second"), "{second}");
}

/// A program that is gone, or is not the one that was built, is built again, whatever the toolchain's stamp says.
#[test]
fn a_program_that_is_gone_comes_back() {
    let stage = unbuilt();
    good(&ended(&mut command(&stage)));
    good(&ended(&mut command(&stage)));
    assert_eq!(calls(&stage), 1);
    fs::remove_file(stage.at("target/bin/replay")).expect("the program");
    good(&ended(&mut command(&stage)));
    assert_eq!(calls(&stage), 2);
    stage.add_program("replay", "echo another");
    good(&ended(&mut command(&stage)));
    assert_eq!(calls(&stage), 3);
}

/// The version tells the commit, if there is one, and the toolchain that built the program.
#[test]
fn the_version() {
    let stage = unbuilt();
    let version = || ended(stage.command(REPORT).arg("--version"));
    assert_eq!(version(), prints("replay unknown, not built\n"));
    good(&ended(&mut command(&stage)));
    assert_eq!(version(), prints("replay unknown, built with kit-7\n"));
}

/// What counts is what a source holds, not when it was written.
#[test]
fn a_source_with_an_older_date() {
    let stage = unbuilt();
    good(&ended(&mut command(&stage)));
    let source = stage.at("crates/one/src/first");
    let dated = |date| {
        let touched = Command::new("touch")
            .args(["-d", date])
            .arg(&source)
            .status();
        assert!(touched.expect("touch runs").success());
    };
    dated("2030-01-01");
    good(&ended(&mut command(&stage)));
    assert_eq!(calls(&stage), 1);
    fs::write(&source, "other").expect("the source");
    dated("2001-01-01");
    good(&ended(&mut command(&stage)));
    assert_eq!(calls(&stage), 2);
    fs::rename(&source, stage.at("crates/one/src/renamed")).expect("the source");
    good(&ended(&mut command(&stage)));
    assert_eq!(calls(&stage), 3);
}

/// Only building needs the toolchain.
#[test]
fn without_a_toolchain() {
    let stage = unbuilt();
    let bare = |stage: &Stage| {
        let mut command = command(stage);
        command
            .env_remove("RATTLE_HOME")
            .env("PATH", "/usr/bin:/bin");
        ended(&mut command)
    };
    let (status, printed, error) = bare(&stage);
    assert_eq!((status, printed.as_str()), (2, ""));
    assert!(
        error.contains("building it needs the Rattle toolchain"),
        "{error}"
    );
    stage.script("target/bin/replay", "cat \"$PRINTS\"");
    stage.mark("replay");
    good(&bare(&stage));
}

/// The program that is built runs by the machine's own loader.
#[cfg(target_arch = "x86_64")]
#[test]
fn the_program_without_a_toolchain() {
    let mut replay = kept(programs::command("replay"));
    replay
        .env_remove("RATTLE_HOME")
        .env("PATH", "/usr/bin:/bin");
    let (status, printed, error) = ended(&mut replay);
    let report = fs::read_to_string(repository().join("crates/replay/stdout"));
    assert_eq!((status, printed), (1, report.expect("the report")));
    let verdict = error.lines().last().expect("a verdict");
    assert!(verdict.starts_with("not clean: 1 line stale"), "{error}");
}

/// The archives are what the toolchain builds of the crates of C functions, under the names that callers link. One that cannot be
/// made says so, and leaves the others as they are.
#[test]
fn the_archives() {
    let stage = Stage::new("replay");
    for name in ["walk_c", "ffi_c", "report_ffi"] {
        fs::create_dir_all(stage.crate_of(name)).expect("a crate");
    }
    let archives = |names: &[&str]| ended(stage.command_at("scripts/archives").args(names));
    let made = |name: &str| fs::read_to_string(stage.at("target/staticlib").join(name)).ok();
    let builds = "[ \"$1\" = lib ] || exit 1
built=${PWD##*/}
mkdir -p out && echo $built >out/lib$built.a";
    stage.script("kit/bin/rt", builds);
    assert_eq!(archives(&["walk", "ffi"]), prints(""));
    assert_eq!(made("libwalk.a").as_deref(), Some("walk_c\n"));
    assert_eq!(made("libffi.a").as_deref(), Some("ffi_c\n"));
    assert_eq!(made("libreport_ffi.a"), None);
    assert_eq!(archives(&[]), prints(""));
    assert_eq!(made("libreport_ffi.a").as_deref(), Some("report_ffi\n"));
    let refused = |names: &[&str], why: &str| {
        let (status, printed, error) = archives(names);
        assert_eq!((status, printed.as_str()), (2, ""));
        assert!(error.contains(why), "{error}");
    };
    refused(&["walk_c"], "there is no archive walk_c");
    stage.script("kit/bin/rt", "exit 1");
    refused(&["walk"], "'rt lib' in crates/walk_c says why");
    assert_eq!(made("libwalk.a").as_deref(), Some("walk_c\n"));
}

#[test]
fn a_checkout_that_cannot_be_written() {
    let stage = unbuilt();
    fs::write(stage.at("target"), "").expect("a file in its place");
    let (status, printed, error) = ended(&mut command(&stage));
    assert_eq!((status, printed.as_str()), (2, ""));
    assert!(error.contains("the checkout cannot be written"), "{error}");
}
