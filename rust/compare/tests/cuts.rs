//! The advice on lists that are too long (refusal 1): a list may be cut directly behind an `all` at which the registers are those of a
//! start. Its second part, started from the memory as it is there, then has the answers that it has in the whole. Cut elsewhere, a
//! stale line can become one that is carried out.
use calls::REPORT_TRACK;
use compare::{cases, Tally};
use model::generate;
use model::machine::{Kind, Operation};

const STALE: u64 = 0x2_0000_0010;
const AT_START: [u32; 4] = [0, 0, 0, 0x5555_5555];

/// A run of operations from a start at root 0: after each its answer, the registers and the memory.
fn run(image: &[u8], operations: &[Operation]) -> Vec<(u64, [u32; 4], Vec<u8>)> {
    let (mut memory, mut track) = (image.to_vec(), vec![0; REPORT_TRACK]);
    let mut registers = [0; 4];
    assert_eq!(calls::start(&memory, &mut track, 0, &mut registers), 0);
    let step = |o: &Operation| {
        let words = [o.kind as u32, o.a, o.b, o.c];
        let answer = calls::step(&words, &mut registers, &mut memory, &mut track);
        (answer, registers, memory.clone())
    };
    operations.iter().map(step).collect()
}

#[test]
fn parts_of_a_list() {
    let mut seen = Tally::default();
    for (case, mut random) in cases(300) {
        let image = generate::image(&mut random);
        let mut operations = generate::operations(&mut random, 8, image.len() as u32, 40);
        // Some places at which a list may be cut.
        for at in [random.below(40), random.below(40)] {
            let reset = [
                (Kind::Mode, 0),
                (Kind::Asid, 0),
                (Kind::Root, 0),
                (Kind::Domain, 0x5555_5555),
                (Kind::All, 0),
            ];
            let reset = reset.map(|(kind, a)| Operation {
                kind,
                a,
                b: 0,
                c: 0,
            });
            operations.splice(at as usize..at as usize, reset);
        }
        let whole = run(&image, &operations);
        for (i, (answer, registers, memory)) in whole.iter().enumerate() {
            let behind =
                |run: &[(u64, [u32; 4], Vec<u8>)]| run.iter().map(|x| x.0).collect::<Vec<_>>();
            let allowed = operations[i].kind == Kind::All && *answer == 0 && *registers == AT_START;
            if !allowed && i % 8 != 0 {
                continue;
            }
            let part = behind(&run(memory, &operations[i + 1..]));
            let rest = behind(&whole[i + 1..]);
            if allowed {
                assert_eq!(part, rest, "case {case}, cut behind operation {i}");
                seen.add("cut where it may be");
            } else if rest.contains(&STALE) && !part.contains(&STALE) {
                seen.add("cut elsewhere, and no line is stale any more");
            }
        }
    }
    let wanted = [
        "cut where it may be",
        "cut elsewhere, and no line is stale any more",
    ];
    seen.must_have("cuts", wanted);
}
