//! A command of the repository with a program that prints what it is told to.
use crate::{kept, repository, Folder};
use std::env;
use std::fs::{self, Permissions};
use std::os::unix::fs::PermissionsExt;
use std::path::PathBuf;
use std::process::Command;

/// A repository of its own, in which a toolchain that proves nothing builds nothing, and whose program
/// prints a text. A command that uses a second program has to be given it.
pub struct Stage {
    name: &'static str,
    folder: Folder,
}

impl Stage {
    /// For a command.
    pub fn new(name: &'static str) -> Stage {
        let folder = Folder::with_image(None);
        let stage = Stage { name, folder };
        let shared = [
            name,
            "crates.txt",
            "scripts/archives",
            "scripts/program.sh",
            "scripts/images.sh",
            "scripts/places.awk",
            "scripts/report.awk",
            "scripts/lines.awk",
            "scripts/refusals.txt",
        ];
        for file in shared {
            let copied = fs::copy(repository().join(file), stage.made(file));
            copied.expect("a file of the repository");
        }
        let loader = "LOADED=yes exec \"$3\"";
        stage.script("kit/toolchain/lib/ld-linux-x86-64.so.2", loader);
        stage.script("kit/bin/rt", "echo \"rt: $*\"; exit 0");
        stage.add_source("first");
        for program in [name, "to_image"] {
            fs::create_dir_all(stage.crate_of(program)).expect("a crate");
        }
        stage.add_program(name, "cat \"$PRINTS\"");
        stage.mark(name);
        stage
    }

    /// Where a file of the stage stands.
    pub fn at(&self, name: &str) -> PathBuf {
        self.folder.path().join(name)
    }

    /// The folder of a program's crate, in which the toolchain is called.
    pub fn crate_of(&self, program: &str) -> PathBuf {
        self.at("crates").join(program)
    }

    /// The same, with its folder made.
    fn made(&self, name: &str) -> PathBuf {
        let path = self.at(name);
        let folder = path.parent().expect("a file stands in a folder");
        fs::create_dir_all(folder).expect("a folder");
        path
    }

    /// Writes a program of the stage.
    pub fn script(&self, name: &str, text: &str) {
        let path = self.made(name);
        fs::write(&path, format!("#!/bin/sh\n{text}\n")).expect("a script");
        fs::set_permissions(&path, Permissions::from_mode(0o755)).expect("its mode");
    }

    /// Adds a program, which the loader alone can run: where the toolchain builds it, and where the commands take it to.
    pub fn add_program(&self, name: &str, text: &str) {
        let text = format!("[ \"${{LOADED:-}}\" = yes ] || exit 1\n{text}");
        self.script(&format!("crates/{name}/out/{name}"), &text);
        self.script(&format!("target/bin/{name}"), &text);
    }

    /// Marks a program as built of the sources that are there.
    pub fn mark(&self, name: &str) {
        let script = ". scripts/program.sh; mark \"$name\" \"$(sum_of_sources)\" kit";
        let status = Command::new("bash")
            .args(["-c", script])
            .env("here", ".")
            .env("name", name)
            .current_dir(self.folder.path())
            .status();
        assert!(status.expect("bash runs").success());
    }

    /// Adds a source: what was built before is no longer up to date.
    pub fn add_source(&self, name: &str) {
        fs::write(self.made(&format!("crates/one/src/{name}")), "").expect("a source");
    }

    /// The command, whose program prints this text.
    pub fn command(&self, text: impl AsRef<[u8]>) -> Command {
        fs::write(self.at("prints"), text).expect("the text");
        let mut command = self.command_at(self.name);
        command.env("PRINTS", self.at("prints"));
        command
    }

    /// A command of the stage, with its toolchain.
    pub fn command_at(&self, name: &str) -> Command {
        let mut path = self.at("kit/bin").into_os_string();
        path.push(":");
        path.push(env::var_os("PATH").expect("PATH is set"));
        let mut command = kept(Command::new(self.at(name)));
        command.env("RATTLE_HOME", self.at("kit")).env("PATH", path);
        command
    }
}
