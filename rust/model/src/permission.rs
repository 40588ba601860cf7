//! What the rules say of an access by AP, mode, kind, domain field and XN, and the sheet of all their
//! answers.
use crate::machine::{Kind, KINDS};
use std::fmt;

/// What is said of an access: its number is the answer in the sheet.
#[derive(Clone, Copy, PartialEq, Eq, Debug)]
pub enum Decision {
    Allowed,
    PermissionFault,
    DomainFault,
}

/// All that an access is decided by: a place of the sheet.
#[derive(Clone, Copy, PartialEq, Eq, Debug)]
pub struct Place {
    /// AP[2:0].
    pub ap: u32,
    /// 0 for the kernel, 1 for the user.
    pub mode: u32,
    /// A read, a write or a fetch.
    pub kind: Kind,
    /// The field of the entry's domain, 0 to 3.
    pub field: u32,
    pub xn: bool,
}

/// What the kernel and the user may do, by AP.
const RIGHTS: [[&str; 2]; 8] = [
    ["", ""],
    ["rw", ""],
    ["rw", "r"],
    ["rw", "rw"],
    ["", ""],
    ["r", ""],
    ["r", "r"],
    ["r", "r"],
];

impl Place {
    /// Whether AP and XN let the access through, in its mode.
    fn permits(&self) -> bool {
        let right = if self.kind == Kind::Write { "w" } else { "r" };
        let stopped_by_xn = self.kind == Kind::Fetch && self.xn;
        !stopped_by_xn && RIGHTS[self.ap as usize][self.mode as usize].contains(right)
    }

    /// What the field, and where it asks for them AP and XN, say of the access.
    pub fn decision(&self) -> Decision {
        match self.field {
            0 | 2 => Decision::DomainFault,
            1 if !self.permits() => Decision::PermissionFault,
            _ => Decision::Allowed,
        }
    }

    /// The answer in the sheet: 0 allowed, 1 permission fault, 2 domain fault.
    pub fn answer(&self) -> u32 {
        self.decision() as u32
    }
}

/// The place in words, such as `AP 0, kernel, read, field 0, XN 0`.
impl fmt::Display for Place {
    fn fmt(&self, f: &mut fmt::Formatter) -> fmt::Result {
        let mode = ["kernel", "user"][self.mode as usize];
        let kind = KINDS[self.kind as usize].1;
        let xn = u32::from(self.xn);
        let Place { ap, field, .. } = self;
        write!(f, "AP {ap}, {mode}, {kind}, field {field}, XN {xn}")
    }
}

/// The places of the sheet in their order: by AP, mode, kind, field and XN, the last running fastest.
pub fn places() -> impl Iterator<Item = Place> {
    let kinds = [Kind::Read, Kind::Write, Kind::Fetch];
    (0..384).map(move |number| Place {
        ap: number / 48,
        mode: number / 24 % 2,
        kind: kinds[number as usize / 8 % 3],
        field: number / 2 % 4,
        xn: number % 2 == 1,
    })
}

/// The sheet: the answer at each place, a digit a line.
pub fn sheet() -> String {
    let lines = places().map(|place| format!("{}\n", place.answer()));
    lines.collect()
}

#[cfg(test)]
mod tests {
    use super::*;

    const KERNEL: usize = 0;
    const USER: usize = 1;

    const READ: usize = 0;
    const WRITE: usize = 1;
    const FETCH: usize = 2;

    /// Where an answer stands in the sheet, by the formula of the rules.
    fn number([ap, mode, kind, field, xn]: [usize; 5]) -> usize {
        (((ap * 2 + mode) * 3 + kind) * 4 + field) * 2 + xn
    }

    /// The digits of the sheet, without their newlines.
    fn digits() -> String {
        sheet().lines().collect()
    }

    /// The eight digits of an AP, a mode and a kind: for each field, XN clear and set.
    fn eight(ap: usize, mode: usize, kind: usize) -> String {
        let first = number([ap, mode, kind, 0, 0]);
        digits()[first..first + 8].to_string()
    }

    #[test]
    fn an_answer_a_line() {
        let sheet = sheet();
        assert_eq!(sheet.len(), 768);
        for line in sheet.as_bytes().chunks(2) {
            assert!(matches!(line, [b'0'..=b'2', b'\n']), "{line:?}");
        }
    }

    #[test]
    fn the_order() {
        assert_eq!(places().count(), 384);
        for (n, place) in places().enumerate() {
            let kind = match place.kind {
                Kind::Read => READ,
                Kind::Write => WRITE,
                _ => FETCH,
            };
            let [ap, mode, field] = [place.ap, place.mode, place.field].map(|x| x as usize);
            assert_eq!(number([ap, mode, kind, field, place.xn.into()]), n);
        }
        let words: Vec<String> = places().map(|place| place.to_string()).collect();
        assert_eq!(words[0], "AP 0, kernel, read, field 0, XN 0");
        assert_eq!(words[9], "AP 0, kernel, write, field 0, XN 1");
        assert_eq!(words[43], "AP 0, user, fetch, field 1, XN 1");
        assert_eq!(words[383], "AP 7, user, fetch, field 3, XN 1");
    }

    /// With AP 0 nothing is permitted to the kernel: the first 24 lines are three times the same.
    #[test]
    fn the_first_lines() {
        let each = "2\n2\n1\n1\n2\n2\n0\n0\n";
        assert_eq!(sheet()[..48], each.repeat(3));
    }

    #[test]
    fn places_by_hand() {
        for (ap, mode, kind, expected) in [
            (1, KERNEL, WRITE, "22002200"),
            (1, USER, READ, "22112200"),
            (2, USER, READ, "22002200"),
            (2, USER, WRITE, "22112200"),
            (2, USER, FETCH, "22012200"),
            (3, KERNEL, READ, "22002200"),
            (3, USER, WRITE, "22002200"),
            (3, USER, FETCH, "22012200"),
            (4, KERNEL, READ, "22112200"),
            (5, KERNEL, READ, "22002200"),
            (5, KERNEL, FETCH, "22012200"),
            (5, USER, FETCH, "22112200"),
            (6, KERNEL, WRITE, "22112200"),
            (7, USER, READ, "22002200"),
            (7, USER, WRITE, "22112200"),
        ] {
            assert_eq!(eight(ap, mode, kind), expected, "{ap}, {mode}, {kind}");
        }
        assert_eq!(number([3, USER, FETCH, 1, 1]), 187);
        assert_eq!(sheet().lines().nth(187), Some("1"));
    }

    #[test]
    fn fields_0_2_and_3() {
        for place in places().filter(|place| place.field != 1) {
            let expected = if place.field == 3 { 0 } else { 2 };
            assert_eq!(place.answer(), expected, "{place}");
        }
    }

    /// The answer by the bits of AP: where the low two are 0 nothing is permitted, 1 is the kernel's
    /// alone, 2 lets the user read and 3 lets the user write too; the high bit forbids writing.
    #[test]
    fn by_the_bits_of_ap() {
        for place in places().filter(|place| place.field == 1) {
            let (low, kernel) = (place.ap & 3, place.mode == 0);
            let reads = low != 0 && (kernel || low != 1);
            let writes = place.ap < 4 && low != 0 && (kernel || low == 3);
            let permitted = match place.kind {
                Kind::Read => reads,
                Kind::Write => writes,
                _ => reads && !place.xn,
            };
            assert_eq!(place.answer() == 0, permitted, "{place}");
        }
    }

    /// Fields 0 and 2 have 192 places, field 3 has 96, and field 1 has 96. Of these, the kernel reads
    /// with six APs and the user with four, whatever XN: 20 places, and 10 for fetches, with XN clear
    /// alone. The kernel writes with three APs and the user with one: 8 places.
    #[test]
    fn how_many_of_each() {
        let count = |digit: &str| digits().matches(digit).count();
        let permitted = 20 + 10 + 8;
        assert_eq!(count("0"), 96 + permitted);
        assert_eq!(count("1"), 96 - permitted);
        assert_eq!(count("2"), 192);
    }
}
