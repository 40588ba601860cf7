//! Single accesses, through the C functions of two archives.
use crate::archive;
use crate::images::{image_of_one, WORD};
use crate::timing::{print_row, shortest, RUNS};
use calls::Machine;
use model::generate::with_field;
use model::machine::{Kind, CLIENTS};
use model::random::Random;
use model::walk::fault;
use std::hint::black_box;
use std::io;
use std::path::Path;

const ACCESSES: usize = 100_000;

/// An operation as the C function takes it: kind, a, b and c.
type Words = [u32; 4];

/// Accesses to be timed, which all have one answer.
struct Accesses {
    name: &'static str,
    image: Vec<u8>,
    /// What the domain register is set to before.
    domains: u32,
    operations: Vec<Words>,
    answer: u64,
}

/// The accesses of a kind to any words of the image that are no tables.
fn operations(kind: Kind) -> Vec<Words> {
    let mut random = Random::new(1);
    let any = |_| {
        let address = 0x800 | random.word() & 0x7FC;
        match kind {
            Kind::Write => [kind as u32, address, 4, address],
            Kind::Fetch => [kind as u32, address, 0, 0],
            _ => [kind as u32, address, 4, 0],
        }
    };
    (0..ACCESSES).map(any).collect()
}

/// The level-one words of a section with AP 3, one with AP 0, and one that points to the table, all in
/// domain 0; and the level-two word of a page with AP 0.
const OPEN: u32 = 0xC02;
const SHUT: u32 = 0x002;
const TABLE: u32 = 0x401;
const SHUT_PAGE: u32 = 0x002;

/// All accesses that are timed, in kernel mode. Noting follows every one of them and takes most of its
/// time, so an image maps one section, or one page by one table, and nothing else: what is left is as
/// much of the access itself as can be seen.
fn all() -> [Accesses; 6] {
    let row = |name, image, field, kind, answer| Accesses {
        name,
        image,
        domains: with_field(CLIENTS, 0, field),
        operations: operations(kind),
        answer,
    };
    let open = || image_of_one(OPEN, 0);
    let faulted = |status| 0x1_0000_0000 + u64::from(status);
    let word = u64::from(WORD);
    [
        row("a read through a section", open(), 1, Kind::Read, word),
        row("a write through a section", open(), 1, Kind::Write, 0),
        row("a fetch through a section", open(), 1, Kind::Fetch, word),
        row(
            "a read with a permission fault",
            image_of_one(SHUT, 0),
            1,
            Kind::Read,
            faulted(fault::PERMISSION_SECTION),
        ),
        row(
            "a read with a domain fault",
            open(),
            0,
            Kind::Read,
            faulted(fault::DOMAIN_SECTION),
        ),
        row(
            "a read through a page with field 3",
            image_of_one(TABLE, SHUT_PAGE),
            3,
            Kind::Read,
            word,
        ),
    ]
}

/// A machine of one context on the functions of an archive, and what it has.
struct Started {
    machine: Machine,
    registers: [u32; 4],
    memory: Vec<u8>,
    track: Vec<u32>,
}

impl Started {
    /// Starts on the image of these accesses and sets the domain register.
    fn new(machine: Machine, accesses: &Accesses) -> Started {
        let mut started = Started {
            machine,
            registers: [0; 4],
            memory: accesses.image.clone(),
            track: vec![0; 2048],
        };
        let (memory, track) = (&started.memory, &mut started.track);
        let answer = machine.start(memory, track, 0, &mut started.registers);
        assert_eq!(answer, 0, "{}: the start", accesses.name);
        let set = started.step(&[Kind::Domain as u32, accesses.domains, 0, 0]);
        assert_eq!(set, 0, "{}: the domain register", accesses.name);
        started
    }

    fn step(&mut self, operation: &Words) -> u64 {
        let (memory, track) = (&mut self.memory, &mut self.track);
        self.machine
            .step(operation, &mut self.registers, memory, track)
    }

    /// Carries all accesses out, each of which must have its answer.
    fn check(&mut self, accesses: &Accesses) {
        for operation in &accesses.operations {
            let found = self.step(operation);
            assert_eq!(found, accesses.answer, "{}: {operation:x?}", accesses.name);
        }
    }

    fn run(&mut self, accesses: &Accesses) {
        for operation in &accesses.operations {
            black_box(self.step(black_box(operation)));
        }
    }

    /// Whether both have the same registers, memory and track.
    fn is_as(&self, other: &Started) -> bool {
        self.registers == other.registers
            && self.memory == other.memory
            && self.track == other.track
    }
}

/// Prints the times of the C function of one archive, `after`, and of an earlier one, `before`.
pub fn against_before(before: &Path, after: &Path) -> io::Result<()> {
    // SAFETY: the command is given archives of `scripts/archives`.
    let (before, after) = unsafe { (archive::machine(before)?, archive::machine(after)?) };
    println!("| 100,000 accesses | after | before | ratio |\n|---|---|---|---|");
    for accesses in all() {
        let mut old = Started::new(before, &accesses);
        let mut new = Started::new(after, &accesses);
        old.check(&accesses);
        new.check(&accesses);
        assert!(new.is_as(&old), "{}: the states differ", accesses.name);
        let [after, before] = shortest(
            RUNS,
            [&mut || new.run(&accesses), &mut || old.run(&accesses)],
        );
        print_row(accesses.name, after, &[before]);
    }
    Ok(())
}
