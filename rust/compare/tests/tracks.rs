//! The whole run of a list, by the C function of the report, against its operations one by one, by
//! those of start and step, which note every page after each: the same answers, memory and track.
use calls::{REPORT_BUFFER, REPORT_TRACK};
use compare::{cases, Tally};
use model::generate;
use model::generate_stores::stores;
use model::machine::{Operation, KINDS};
use model::random::Random;

/// What is left after a run: the answers, memory and track.
#[derive(PartialEq)]
struct Left {
    answers: Vec<String>,
    memory: Vec<u8>,
    track: Vec<u32>,
}

/// A track for a run to begin with, which a start empties.
fn any_track(random: &mut Random) -> Vec<u32> {
    (0..REPORT_TRACK).map(|_| random.word()).collect()
}

/// The list as a whole.
fn as_a_list(image: &[u8], operations: &[Operation], track: &[u32]) -> Left {
    let (mut memory, mut track) = (image.to_vec(), track.to_vec());
    let (list, mut out) = (generate::text(operations), vec![0; REPORT_BUFFER]);
    let length = calls::report(&mut memory, &list, &mut track, &mut out) as usize;
    let report = String::from_utf8(out[..length].to_vec()).expect("a report is ASCII");
    let lines = report.lines().skip(1);
    let answer = |line: &str| line.splitn(3, ',').nth(2).map(String::from);
    Left {
        answers: lines.filter_map(answer).collect(),
        memory,
        track,
    }
}

/// An answer of the C functions, as a report has it.
fn shown(answer: u64) -> String {
    let word = ["ok", "fault", "refused"][(answer >> 32) as usize];
    format!("{word},{:x}", answer as u32)
}

/// Its operations one by one.
fn one_by_one(image: &[u8], operations: &[Operation], track: &[u32]) -> Left {
    let (mut memory, mut track) = (image.to_vec(), track.to_vec());
    let mut registers = [0; 4];
    let started = calls::start(&memory, &mut track, 0, &mut registers);
    assert_eq!(started, 0, "the start is refused");
    let step = |o: &Operation| {
        let words = [o.kind as u32, o.a, o.b, o.c];
        shown(calls::step(&words, &mut registers, &mut memory, &mut track))
    };
    let answers = operations.iter().map(step).collect();
    Left {
        answers,
        memory,
        track,
    }
}

/// Fields that an operation does not use are 0 in a list.
fn with_unused_0(mut o: Operation) -> Operation {
    let (_, _, used) = KINDS[o.kind as usize];
    let mut fields = [o.a, o.b, o.c];
    fields[used..].fill(0);
    [o.a, o.b, o.c] = fields;
    o
}

#[test]
fn lists_leave_what_their_operations_leave() {
    let mut seen = Tally::default();
    for (case, mut random) in cases(2_000) {
        let image = generate::image(&mut random);
        let memory = image.len() as u32;
        let mut operations = match case % 2 {
            0 => stores(&mut random, 8, memory, 60),
            _ => generate::operations(&mut random, 8, memory, 60),
        };
        for o in &mut operations {
            if case % 4 == 3 {
                *o = generate::damaged(&mut random, 8, *o);
            }
            *o = with_unused_0(*o);
        }
        let track = any_track(&mut random);
        let whole = as_a_list(&image, &operations, &track);
        let single = one_by_one(&image, &operations, &track);
        assert_eq!(whole.answers, single.answers, "case {case}");
        assert!(whole.memory == single.memory, "case {case}: memory");
        assert!(whole.track == single.track, "case {case}: the track");
        for answer in whole.answers {
            let word = answer.split(',').next();
            seen.add(word.unwrap_or_default().to_string());
        }
        if whole.track.contains(&1) {
            seen.add("two entries".to_string());
        }
    }
    let wanted = ["ok", "fault", "refused", "two entries"].map(String::from);
    seen.must_have("answers, and tracks with a page of two entries", wanted);
}

#[test]
fn buffers_that_do_not_fit_are_left_alone() {
    let image = generate::image_a();
    for (words, bytes, answer) in [
        (REPORT_TRACK, REPORT_BUFFER - 1, 0x3_0000_0000_u64),
        (REPORT_TRACK - 1, REPORT_BUFFER, 0x3_0000_0001),
        (REPORT_TRACK + 1024, REPORT_BUFFER, 0x3_0000_0001),
        (0, 0, 0x3_0000_0000),
    ] {
        let (mut memory, mut track, mut out) = (image.clone(), vec![7; words], vec![9; bytes]);
        let list = b"op,a,b,c\nwrite,404,4,0\n";
        let found = calls::report(&mut memory, list, &mut track, &mut out);
        assert_eq!(found, answer, "{words} words, {bytes} bytes");
        let kept = memory == image && track == vec![7; words] && out == vec![9; bytes];
        assert!(kept, "{words} words, {bytes} bytes: a buffer has changed");
    }
}
