//! The reports of the plain program and of the model: against each other on generated images and
//! lists, whole and damaged, and against reports written by hand. For both ways of noting.
use model::generate;
use model::list;
use model::random::Random;

const WAYS: [rival::Note; 2] = [rival::by_page, rival::by_mib];

/// The report of the model, which the plain program has to give too.
fn report(case: &str, image: Option<&[u8]>, list: &[u8]) -> String {
    let expected = list::report(image, list);
    for note in WAYS {
        let found = rival::report(image.unwrap_or_default().to_vec(), list, note);
        let found = String::from_utf8(found).expect("a report is ASCII");
        assert_eq!(found, expected, "{case}");
    }
    expected
}

/// What some report must have, and what it tells.
const MET: [(&str, &str); 12] = [
    (",refused,10\n", "a stale page"),
    (",-,refused,", "a list turned back"),
    (",fetch,ok,", "a word fetched"),
    (",fetch,fault,", "a fetch that faulted"),
    (",domain,ok,", "a domain register set"),
    (
        ",domain,refused,11\n",
        "a domain register with a field of 2",
    ),
    (",fault,9\n", "a section's domain closed"),
    (",fault,b\n", "a page's domain closed"),
    (",root,ok,", "a root set"),
    (",root,refused,14\n", "a root under another context than 0"),
    (",root,refused,f\n", "a root in user mode"),
    (",root,refused,a\n", "a root that is no multiple of 0x80"),
];

#[test]
fn reports() {
    let mut met = [0; MET.len()];
    for case in 0..400 {
        let mut random = Random::new(case);
        let image = generate::image_file(&mut random);
        let memory = image.as_ref().map_or(0, Vec::len) as u32;
        let text = generate::list(&mut random, memory);
        let report = report(&format!("case {case}"), image.as_deref(), &text);
        for (count, (part, _)) in met.iter_mut().zip(MET) {
            *count += report.matches(part).count();
        }
    }
    for (count, (_, what)) in met.into_iter().zip(MET) {
        println!("{what}: {count}");
        assert!(count > 0, "never met: {what}");
    }
}

/// Roots 0 and 0x80 map page 1 to other words, with nG set: what is printed for a list on them.
fn lines(list: &str) -> Vec<String> {
    let mut image = generate::image_a();
    for (at, word) in [
        (0x400, 0x832),
        (0x80, 0x801),
        (0x800, 0x832),
        (0x804, 0x4832),
    ] {
        image[at..at + 4].copy_from_slice(&u32::to_le_bytes(word));
    }
    let list = format!("op,a,b,c\n{list}");
    let report = report(&list, Some(&image), list.as_bytes());
    report.lines().skip(1).map(String::from).collect()
}

/// Under context 3 no root is set, another one as little as the one held: 10 for its value comes
/// first, then 15 for user mode, then 20. Under context 0 it is set.
#[test]
fn roots_under_another_context() {
    let found = lines(
        "asid,3,0,0\nroot,80,0,0\nread,1000,4,0\nroot,0,0,0\nroot,40,0,0\nmode,1,0,0\n\
         root,80,0,0\nroot,0,0,0\nroot,40,0,0\nmode,0,0,0\nasid,0,0,0\nread,1000,4,0\n\
         root,80,0,0\nread,1000,4,0\nasid,4,0,0\nread,1000,4,0\n",
    );
    let expected = [
        "2,asid,ok,0",
        "3,root,refused,14",
        "4,read,ok,12345678",
        "5,root,refused,14",
        "6,root,refused,a",
        "7,mode,ok,0",
        "8,root,refused,f",
        "9,root,refused,f",
        "a,root,refused,a",
        "b,mode,ok,0",
        "c,asid,ok,0",
        "d,read,ok,12345678",
        "e,root,ok,0",
        "f,read,refused,10",
        "10,asid,ok,0",
        "11,read,ok,11223344",
    ];
    assert_eq!(found, expected);
}

/// Under context 3 every operation but `root` goes on as it does under context 0.
#[test]
fn other_operations_under_another_context() {
    let operations = "read,1000,4,0\nwrite,1000,4,55\nfetch,1000,0,0\nmode,1,0,0\nmode,0,0,0\n\
                      domain,55555554,0,0\nread,1000,4,0\ndomain,55555555,0,0\nall,0,0,0\n\
                      addr,1000,0,0\nctx,0,0,0\nctx,3,0,0\naddrctx,1000,0,0\nread,1000,1,0\n\
                      asid,3,0,0\nasid,7,0,0\nasid,3,0,0\nasid,0,0,0\n";
    let expected = [
        "read,ok,12345678",
        "write,ok,0",
        "fetch,ok,55",
        "mode,ok,0",
        "mode,ok,0",
        "domain,ok,0",
        "read,fault,b",
        "domain,ok,0",
        "all,ok,0",
        "addr,ok,0",
        "ctx,ok,0",
        "ctx,ok,0",
        "addrctx,ok,0",
        "read,ok,55",
        "asid,ok,0",
        "asid,ok,0",
        "asid,ok,0",
        "asid,ok,0",
    ];
    for context in [0, 3] {
        let found = lines(&format!("asid,{context},0,0\n{operations}"));
        let answers = found.iter().filter_map(|line| line.split_once(','));
        let answers: Vec<&str> = answers.map(|(_, answer)| answer).skip(1).collect();
        assert_eq!(answers, expected, "context {context}");
    }
}
