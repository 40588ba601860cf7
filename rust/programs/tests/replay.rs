//! The program on the listing of the rules, and at the edges of a list and an image.
use model::generate::image_a;
use programs::replay;

const HEADER: &str = "line,op,answer,value\n";
const NAMES: &str = "op,a,b,c\n";

/// The report of a list on image A, without its header.
fn lines(list: &str) -> String {
    behind_header(&replay(list.as_bytes(), Some(&image_a())))
}

fn behind_header(report: &[u8]) -> String {
    let report = String::from_utf8(report.to_vec()).expect("a report is ASCII");
    let rest = report.strip_prefix(HEADER).expect("the header comes first");
    rest.to_string()
}

#[test]
fn the_listing() {
    let list = "read,1000,4,0\nwrite,404,4,4832\nread,1000,4,0\naddr,1000,0,0\nread,1000,4,0\n\
                read,1002,4,0\nread,2000,1,0\nmode,1,0,0\nread,404,4,0\nall,0,0,0\n";
    let report = "2,read,ok,12345678\n3,write,ok,0\n4,read,refused,10\n5,addr,ok,0\n\
                  6,read,ok,11223344\n7,read,fault,1\n8,read,fault,7\n9,mode,ok,0\n\
                  a,read,fault,f\nb,all,refused,f\n";
    assert_eq!(lines(&format!("{NAMES}{list}")), report);
}

/// Image A with page 1 global: with nG clear in its level-two word at 0x404.
fn image_with_a_global_page() -> Vec<u8> {
    let mut image = image_a();
    image[0x404..0x408].copy_from_slice(&0x3032_u32.to_le_bytes());
    image
}

/// What is printed for a list on that image.
fn lines_with_a_global_page(list: &str) -> String {
    let list = format!("{NAMES}{list}");
    behind_header(&replay(list.as_bytes(), Some(&image_with_a_global_page())))
}

/// A global page mapped anew, still global: a flush of the current context spares the old entry, one
/// of the page drops it, whichever context it names.
#[test]
fn which_flush_frees_a_global_page() {
    let found = lines_with_a_global_page(
        "read,1000,4,0\nwrite,404,4,4032\nread,1000,4,0\nctx,0,0,0\nread,1000,4,0\n\
         addrctx,2000,0,0\nread,1000,4,0\naddrctx,1000,5,0\nread,1000,4,0\nasid,5,0,0\n\
         read,1000,4,0\n",
    );
    let expected = "2,read,ok,12345678\n3,write,ok,0\n4,read,refused,10\n5,ctx,ok,0\n\
                    6,read,refused,10\n7,addrctx,ok,0\n8,read,refused,10\n9,addrctx,ok,0\n\
                    a,read,ok,11223344\nb,asid,ok,0\nc,read,ok,11223344\n";
    assert_eq!(found, expected);
}

/// A global page no longer mapped is stale in a context that never saw it, until it is flushed.
#[test]
fn a_global_page_unmapped() {
    let found = lines_with_a_global_page(
        "write,404,4,0\nasid,1,0,0\nread,1000,4,0\nctx,1,0,0\nread,1000,4,0\n\
         addr,1000,0,0\nread,1000,4,0\nasid,0,0,0\nread,1000,4,0\n",
    );
    let expected = "2,write,ok,0\n3,asid,ok,0\n4,read,refused,10\n5,ctx,ok,0\n\
                    6,read,refused,10\n7,addr,ok,0\n8,read,fault,7\n9,asid,ok,0\n\
                    a,read,fault,7\n";
    assert_eq!(found, expected);
}

/// With nG set, the same list ends otherwise: the entry stands in context 0 alone.
#[test]
fn an_own_page_unmapped() {
    let list = "write,404,4,0\nasid,1,0,0\nread,1000,4,0\nasid,0,0,0\nread,1000,4,0\n\
                ctx,0,0,0\nread,1000,4,0\n";
    let expected = "2,write,ok,0\n3,asid,ok,0\n4,read,fault,7\n5,asid,ok,0\n\
                    6,read,refused,10\n7,ctx,ok,0\n8,read,fault,7\n";
    assert_eq!(lines(&format!("{NAMES}{list}")), expected);
}

/// Fetches from image A, in and out of its map and at the end of the window; then XN of page 1 is
/// set, which stops fetches and, until a flush, reads too; then user mode, which may not read page 0.
#[test]
fn fetches() {
    let list = "fetch,1000,0,0\nfetch,1002,0,0\nfetch,2000,0,0\nfetch,3ffffc,0,0\n\
                fetch,400000,0,0\nfetch,400001,0,0\nwrite,404,4,3833\nfetch,1000,0,0\n\
                read,1000,4,0\nfetch,1001,0,0\naddrctx,1000,0,0\nfetch,1000,0,0\n\
                read,1000,4,0\nfetch,400,0,0\nmode,1,0,0\nfetch,400,0,0\nfetch,1000,0,0\n\
                read,1000,4,0\n";
    let report = "2,fetch,ok,12345678\n3,fetch,fault,1\n4,fetch,fault,7\n5,fetch,fault,5\n\
                  6,fetch,refused,8\n7,fetch,refused,8\n8,write,ok,0\n9,fetch,refused,10\n\
                  a,read,refused,10\nb,fetch,fault,1\nc,addrctx,ok,0\nd,fetch,fault,f\n\
                  e,read,ok,12345678\nf,fetch,ok,812\n10,mode,ok,0\n11,fetch,fault,f\n\
                  12,fetch,fault,f\n13,read,ok,12345678\n";
    assert_eq!(lines(&format!("{NAMES}{list}")), report);
}

/// Image A is in domain 0: its field closed, opened to everything, and 1 again; a field of 2, the
/// first or the last, and user mode, in which the register is not set. Nothing becomes stale by
/// that; the domain of the first MiB's pointer alone changed makes its pages stale.
#[test]
fn domains() {
    let list = "domain,55555554,0,0\nread,1000,4,0\nfetch,1000,0,0\nread,1002,4,0\n\
                read,2000,1,0\nread,100000,4,0\ndomain,55555557,0,0\nmode,1,0,0\n\
                read,400,4,0\ndomain,55555555,0,0\ndomain,95555555,0,0\nmode,0,0,0\n\
                domain,55555556,0,0\nread,1000,4,0\ndomain,55555555,0,0\nmode,1,0,0\n\
                read,400,4,0\nmode,0,0,0\nwrite,0,4,421\nread,1000,4,0\ndomain,0,0,0\n\
                read,1000,4,0\nctx,0,0,0\nread,1000,4,0\ndomain,4,0,0\nread,1000,4,0\n";
    let report = "2,domain,ok,0\n3,read,fault,b\n4,fetch,fault,b\n5,read,fault,1\n\
                  6,read,fault,7\n7,read,fault,5\n8,domain,ok,0\n9,mode,ok,0\n\
                  a,read,ok,812\nb,domain,refused,f\nc,domain,refused,11\nd,mode,ok,0\n\
                  e,domain,refused,11\nf,read,ok,12345678\n10,domain,ok,0\n11,mode,ok,0\n\
                  12,read,fault,f\n13,mode,ok,0\n14,write,ok,0\n15,read,refused,10\n\
                  16,domain,ok,0\n17,read,refused,10\n18,ctx,ok,0\n19,read,fault,b\n\
                  1a,domain,ok,0\n1b,read,ok,12345678\n";
    assert_eq!(lines(&format!("{NAMES}{list}")), report);
}

/// Under context 1 no root is set: neither the one held nor that of a map without pages, 0x80;
/// first come the checks for its value and for user mode. Through context 0 the pages of contexts 0
/// and 1 turn stale, and are trusted again when the root is back; context 2, which saw none, has
/// faults.
#[test]
fn roots_and_contexts() {
    let list = "asid,1,0,0\nroot,80,0,0\nread,1000,4,0\nroot,0,0,0\nroot,1,0,0\nmode,1,0,0\n\
                root,80,0,0\nroot,40,0,0\nmode,0,0,0\nasid,0,0,0\nroot,80,0,0\n\
                read,1000,4,0\nasid,1,0,0\nread,1000,4,0\nroot,0,0,0\nasid,2,0,0\n\
                read,1000,4,0\nasid,0,0,0\nroot,0,0,0\nread,1000,4,0\nasid,1,0,0\n\
                read,1000,4,0\nasid,2,0,0\nread,1000,4,0\n";
    let report = "2,asid,ok,0\n3,root,refused,14\n4,read,ok,12345678\n5,root,refused,14\n\
                  6,root,refused,a\n7,mode,ok,0\n8,root,refused,f\n9,root,refused,a\n\
                  a,mode,ok,0\nb,asid,ok,0\nc,root,ok,0\nd,read,refused,10\ne,asid,ok,0\n\
                  f,read,refused,10\n10,root,refused,14\n11,asid,ok,0\n12,read,fault,5\n\
                  13,asid,ok,0\n14,root,ok,0\n15,read,ok,12345678\n16,asid,ok,0\n\
                  17,read,ok,12345678\n18,asid,ok,0\n19,read,ok,12345678\n";
    assert_eq!(lines(&format!("{NAMES}{list}")), report);
}

#[test]
fn the_empty_list_and_names_alone() {
    assert_eq!(lines(""), "1,-,refused,2\n");
    assert_eq!(lines("op,a,b,c"), "1,-,refused,2\n");
    assert_eq!(lines(NAMES), "");
}

#[test]
fn a_start_without_an_image() {
    let long = vec![b'x'; 65_537];
    for list in [NAMES.as_bytes(), &long] {
        assert_eq!(behind_header(&replay(list, None)), "0,start,refused,d\n");
    }
}

#[test]
fn an_image_at_its_limit() {
    let full = vec![0; 32_768];
    assert_eq!(behind_header(&replay(NAMES.as_bytes(), Some(&full))), "");
    for length in [0, 4_095, 5_000, 32_769, 40_960] {
        let image = vec![0; length];
        let report = behind_header(&replay(NAMES.as_bytes(), Some(&image)));
        assert_eq!(report, "0,start,refused,d\n", "{length} bytes");
    }
}

#[test]
fn a_list_at_its_limit() {
    // 9 bytes of names, then lines of 10 and one of 17 bytes: 65,536 in all.
    let most = format!(
        "{NAMES}{}{}",
        "all,0,0,0\n".repeat(6_551),
        "read,1000,4,0\nxxx"
    );
    assert_eq!(most.len(), 65_536);
    let report = lines(&most);
    assert_eq!(report.lines().count(), 6_553);
    assert_eq!(report.lines().last(), Some("199a,-,refused,3"));
    assert_eq!(lines(&format!("{most}x")), "1,-,refused,1\n");
}

/// Lines that are turned back, and by which number. For each operation and each field that it does not
/// use there is a line in which that field alone is wrong.
const TURNED_BACK: [(&str, u32); 50] = [
    ("read,1000,4", 3),
    ("read,1000,4,0,0", 3),
    ("", 3),
    ("foo,1", 3),
    ("read,,4,0", 4),
    ("read,01000,4,0", 4),
    ("read,123456789,4,0", 4),
    ("read,ABC,4,0", 4),
    ("Read,XX,4,0", 4),
    ("Read,1000,4,0", 5),
    (",0,0,0", 5),
    ("fetch,1000,0", 3),
    ("fetch,1000,0,0,0", 3),
    ("fetch,,0,0", 4),
    ("fetch,1000,04,0", 4),
    ("fetc,1000,0,0", 5),
    ("fetchx,1000,0,0", 5),
    ("Fetch,1000,0,0", 5),
    ("fetch ,1000,0,0", 5),
    ("addrctxfetch,1000,0,0", 5),
    ("domain,0,0", 3),
    ("domain,0,0,0,0", 3),
    ("domain,,0,0", 4),
    ("domain,0x0,0,0", 4),
    ("domain,155555555,0,0", 4),
    ("domai,0,0,0", 5),
    ("domains,0,0,0", 5),
    ("Domain,0,0,0", 5),
    (" domain,0,0,0", 5),
    ("fetchdomain,0,0,0", 5),
    ("read,1000,4,1", 6),
    ("root,80,1,0", 6),
    ("root,80,0,1", 6),
    ("asid,1,1,0", 6),
    ("asid,1,0,1", 6),
    ("mode,1,1,0", 6),
    ("mode,1,0,1", 6),
    ("all,1,0,0", 6),
    ("all,0,1,0", 6),
    ("all,0,0,1", 6),
    ("addr,1000,1,0", 6),
    ("addr,1000,0,1", 6),
    ("ctx,1,1,0", 6),
    ("ctx,1,0,1", 6),
    ("addrctx,1000,1,1", 6),
    ("fetch,1000,4,0", 6),
    ("fetch,1000,0,1", 6),
    ("domain,1,1,0", 6),
    ("domain,1,0,1", 6),
    ("domain,2,1,0", 6),
];

#[test]
fn each_list_refusal_ends_the_report() {
    for (line, number) in TURNED_BACK {
        let list = format!("{NAMES}mode,0,0,0\n{line}\nmode,0,0,0\n");
        let report = format!("2,mode,ok,0\n3,-,refused,{number}\n");
        assert_eq!(lines(&list), report, "{line}");
    }
    let unended = format!("{NAMES}mode,0,0,0\nmode,0,0,0");
    assert_eq!(lines(&unended), "2,mode,ok,0\n3,-,refused,3\n");
}

/// Lines that are read, and what is answered: each operation with each field that it uses nonzero,
/// small and as large as can be. What is refused here is refused by the machine.
const READ: [(&str, &str); 21] = [
    ("read,1000,4,0", "ok,12345678"),
    ("read,ffffffff,ffffffff,0", "refused,7"),
    ("write,1000,4,1", "ok,0"),
    ("write,ffffffff,ffffffff,ffffffff", "refused,7"),
    ("root,80,0,0", "ok,0"),
    ("root,ffffffff,0,0", "refused,a"),
    ("asid,1,0,0", "ok,0"),
    ("asid,ffffffff,0,0", "refused,b"),
    ("mode,1,0,0", "ok,0"),
    ("mode,ffffffff,0,0", "refused,c"),
    ("all,0,0,0", "ok,0"),
    ("addr,1000,0,0", "ok,0"),
    ("addr,ffffffff,0,0", "refused,8"),
    ("ctx,1,0,0", "ok,0"),
    ("ctx,ffffffff,0,0", "refused,b"),
    ("addrctx,1000,1,0", "ok,0"),
    ("addrctx,ffffffff,ffffffff,0", "refused,8"),
    ("fetch,1000,0,0", "ok,12345678"),
    ("fetch,ffffffff,0,0", "refused,8"),
    ("domain,1,0,0", "ok,0"),
    ("domain,ffffffff,0,0", "ok,0"),
];

#[test]
fn used_fields_are_read() {
    for (line, answer) in READ {
        let (name, _) = line.split_once(',').expect("a line has fields");
        let list = format!("{NAMES}mode,0,0,0\n{line}\nmode,0,0,0\n");
        let report = format!("2,mode,ok,0\n3,{name},{answer}\n4,mode,ok,0\n");
        assert_eq!(lines(&list), report, "{line}");
    }
}
