//! The sheet of permissions against the code: an access at each of its places, but for those with
//! field 2, which no register has.
use model::generate::with_field;
use model::machine::Kind;
use model::permission::{places, Decision, Place};
use model::walk::fault;

/// What maps the address of an access to the frame at 0.
#[derive(Clone, Copy, PartialEq, Debug)]
enum By {
    Section,
    SmallPage,
    LargePage,
}

/// The address, and the word that stands there.
const ADDRESS: u32 = 0x800;
const WORD: u32 = 0x1234_5678;

impl By {
    /// The words at the root and at the start of the table at 0x400, with AP and XN of a place.
    fn words(self, place: Place, domain: u32) -> [u32; 2] {
        let (low, high, xn) = (place.ap & 3, place.ap >> 2, u32::from(place.xn));
        let page = low << 4 | high << 9;
        let [first, second] = match self {
            By::Section => [2 | low << 10 | high << 15 | xn << 4, 0],
            By::SmallPage => [0x401, page | 2 | xn],
            By::LargePage => [0x401, page | 1 | xn << 15],
        };
        [first | domain << 5, second]
    }

    /// What an access must answer, by what the model says of it.
    fn expected(self, place: Place) -> u64 {
        let told = |section, page| {
            let status = if self == By::Section { section } else { page };
            0x1_0000_0000 + u64::from(status)
        };
        match place.decision() {
            Decision::Allowed if place.kind == Kind::Write => 0,
            Decision::Allowed => WORD.into(),
            Decision::PermissionFault => told(fault::PERMISSION_SECTION, fault::PERMISSION_PAGE),
            Decision::DomainFault => told(fault::DOMAIN_SECTION, fault::DOMAIN_PAGE),
        }
    }
}

/// The answer of the C function to an access at a place, on an image that is mapped for it. The fields
/// of the other domains are ones that would not do.
fn answer(by: By, place: Place, domain: u32) -> u64 {
    let mut memory = vec![0; 4096];
    let [first, second] = by.words(place, domain);
    for (at, word) in [(0, first), (0x400, second), (ADDRESS as usize, WORD)] {
        memory[at..at + 4].copy_from_slice(&word.to_le_bytes());
    }
    let (mut track, mut registers) = (vec![0; 2048], [0; 4]);
    assert_eq!(calls::start(&memory, &mut track, 0, &mut registers), 0);
    let mut step = |kind: Kind, a, b, c| {
        let operation = [kind as u32, a, b, c];
        calls::step(&operation, &mut registers, &mut memory, &mut track)
    };
    let others = if place.field == 0 { u32::MAX } else { 0 };
    let domains = with_field(others, domain, place.field);
    assert_eq!(step(Kind::Domain, domains, 0, 0), 0);
    assert_eq!(step(Kind::Mode, place.mode, 0, 0), 0);
    match place.kind {
        Kind::Write => step(Kind::Write, ADDRESS, 4, 5),
        kind => step(kind, ADDRESS, 4, 0),
    }
}

#[test]
fn accesses_at_all_places() {
    for place in places().filter(|place| place.field != 2) {
        for by in [By::Section, By::SmallPage, By::LargePage] {
            for domain in 0..16 {
                let found = answer(by, place, domain);
                let expected = by.expected(place);
                assert_eq!(found, expected, "{place}: {by:?}, domain {domain}");
            }
        }
    }
}
