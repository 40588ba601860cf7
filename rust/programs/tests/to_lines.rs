//! The program `to_lines`: the lines of images, there and back again by `to_image`, and files that are
//! no image.
use model::generate::image_a;
use model::generate_lines::{self, LINES_OF_A, SPREADS};
use model::random::Random;
use programs::{
    by_shell, ended, finish, kept, only_says, prints, program, told, unwritable, with_open_pipe,
    Folder, Told,
};
use std::fs;
use std::io::Write;
use std::os::unix::fs::symlink;
use std::os::unix::net::UnixListener;
use std::path::Path;
use std::process::Command;

/// What is printed for a file that is no image.
const NO_IMAGE: &str = "0,13\n";

/// The program, in a folder, with nothing on standard input.
fn to_lines(folder: &Folder) -> Command {
    kept(program("to_lines", folder.path()))
}

/// What is printed for these bytes.
fn printed(image: &[u8]) -> String {
    String::from_utf8(programs::to_lines(Some(image))).expect("lines are ASCII")
}

#[test]
fn image_a_of_the_rules() {
    assert_eq!(printed(&image_a()), LINES_OF_A);
}

#[test]
fn images_of_zeros() {
    for (length, lines) in [
        (4_096, "at,word\nffc,0\n"),
        (8_192, "at,word\n1ffc,0\n"),
        (12_288, "at,word\n2ffc,0\n"),
        (16_384, "at,word\n3ffc,0\n"),
        (20_480, "at,word\n4ffc,0\n"),
        (24_576, "at,word\n5ffc,0\n"),
        (28_672, "at,word\n6ffc,0\n"),
        (32_768, "at,word\n7ffc,0\n"),
    ] {
        assert_eq!(printed(&vec![0; length]), lines);
    }
}

#[test]
fn a_byte_of_each_place() {
    for (at, lines) in [
        (0, "at,word\n0,1\nffc,0\n"),
        (1, "at,word\n0,100\nffc,0\n"),
        (2, "at,word\n0,10000\nffc,0\n"),
        (3, "at,word\n0,1000000\nffc,0\n"),
        (4, "at,word\n4,1\nffc,0\n"),
        (0x7FF, "at,word\n7fc,1000000\nffc,0\n"),
        (0xFFB, "at,word\nff8,1000000\nffc,0\n"),
        (0xFFC, "at,word\nffc,1\n"),
        (0xFFF, "at,word\nffc,1000000\n"),
    ] {
        let mut image = vec![0; 4_096];
        image[at] = 1;
        assert_eq!(printed(&image), lines, "{at:x}");
    }
}

/// Two words of eight digits, and then one of each digit.
#[test]
fn the_spelling_of_words() {
    let mut image = vec![0; 8_192];
    image[..8].copy_from_slice(&[0x78, 0x56, 0x34, 0x12, 0xF0, 0xDE, 0xBC, 0x9A]);
    for digit in 0..16 {
        image[0x100 + 4 * digit] = digit as u8;
    }
    let lines = "at,word\n0,12345678\n4,9abcdef0\n104,1\n108,2\n10c,3\n110,4\n114,5\n118,6\n\
                 11c,7\n120,8\n124,9\n128,a\n12c,b\n130,c\n134,d\n138,e\n13c,f\n1ffc,0\n";
    assert_eq!(printed(&image), lines);
}

/// The most lines that an image has, and the longest.
#[test]
fn a_line_for_every_word() {
    let lines = printed(&[0xFF; 32_768]);
    let expected = (0..8_192).map(|n| format!("{:x},ffffffff\n", 4 * n));
    assert!(lines == format!("at,word\n{}", expected.collect::<String>()));
}

#[test]
fn there_and_back() {
    for pages in 1..=8 {
        let mut random = Random::new(pages.into());
        let dense = (0..4_096 * pages).map(|_| random.word() as u8).collect();
        let spread = SPREADS.map(|spread| generate_lines::image(&mut random, pages, spread));
        for image in spread.into_iter().chain([dense]) {
            let lines = programs::to_lines(Some(&image));
            assert!(programs::to_image(&lines) == image, "{pages} pages");
        }
    }
}

#[test]
fn lengths_of_no_image() {
    for length in [
        0, 1, 4, 4_092, 4_095, 4_097, 4_100, 5_000, 8_191, 8_193, 32_764, 32_767, 32_769, 32_772,
        36_864, 40_960, 65_536, 69_632, 1_048_576,
    ] {
        for byte in [0, 1] {
            assert_eq!(printed(&vec![byte; length]), NO_IMAGE, "{length} bytes");
        }
    }
}

#[test]
fn a_file_that_is_missing() {
    assert_eq!(programs::to_lines(None), NO_IMAGE.as_bytes());
}

#[test]
fn a_file_of_which_no_byte_can_be_read() {
    let folder = Folder::with_image(None);
    fs::create_dir(folder.path().join("image.bin")).expect("a folder");
    assert_eq!(ended(&mut to_lines(&folder)), prints(NO_IMAGE));
    let folder = Folder::with_image(None);
    let _socket = UnixListener::bind(folder.path().join("image.bin")).expect("a socket");
    assert_eq!(ended(&mut to_lines(&folder)), prints(NO_IMAGE));
}

/// What the program tells if its image is a FIFO that brings these parts.
fn by_fifo(parts: &[&[u8]]) -> Told {
    let folder = Folder::with_image(None);
    let fifo = folder.path().join("image.bin");
    let made = Command::new("mkfifo").arg(&fifo).status();
    assert!(made.expect("mkfifo runs").success());
    let child = to_lines(&folder).spawn().expect("to_lines runs");
    let mut pipe = fs::File::options()
        .write(true)
        .open(&fifo)
        .expect("the FIFO");
    for part in parts {
        pipe.write_all(part).expect("a part of the image");
    }
    drop(pipe);
    told(&finish(child))
}

#[test]
fn an_image_in_parts() {
    let image = image_a();
    for size in [1, 7, 1_000, 4_096, 32_767] {
        let parts: Vec<&[u8]> = image.chunks(size).collect();
        assert_eq!(by_fifo(&parts), prints(LINES_OF_A), "{size}");
    }
    assert_eq!(by_fifo(&[&image, b"x"]), prints(NO_IMAGE));
    assert_eq!(by_fifo(&[&image[1..]]), prints(NO_IMAGE));
    assert_eq!(by_fifo(&[]), prints(NO_IMAGE));
}

/// What the program tells if its image is a link to this file.
fn by_link(file: &Path) -> Told {
    let folder = Folder::with_image(None);
    symlink(file, folder.path().join("image.bin")).expect("a link");
    ended(&mut to_lines(&folder))
}

#[test]
fn links() {
    let folder = Folder::with_image(Some(&image_a()));
    let image = folder.path().join("image.bin");
    assert_eq!(by_link(&image), prints(LINES_OF_A));
    for file in ["nothing", "image.bin", "/dev/null", "/dev/zero"] {
        assert_eq!(by_link(Path::new(file)), prints(NO_IMAGE), "{file}");
    }
}

#[test]
fn standard_input_is_not_read() {
    for (image, expected) in [(Some(&image_a()[..]), LINES_OF_A), (None, NO_IMAGE)] {
        let folder = Folder::with_image(image);
        let mut closed = by_shell("exec \"$@\" <&-", &to_lines(&folder));
        assert_eq!(ended(&mut closed), prints(expected));
        for bytes in [&b""[..], b"at,word\n", &[0xFF; 4_096]] {
            let told = with_open_pipe(&mut to_lines(&folder), bytes);
            assert_eq!(told, prints(expected));
        }
    }
}

#[test]
fn arguments_change_nothing() {
    let folder = Folder::with_image(Some(&image_a()));
    for arguments in [&[][..], &["--help"], &["other.bin"], &["0", "1"]] {
        let told = ended(to_lines(&folder).args(arguments));
        assert_eq!(told, prints(LINES_OF_A), "{arguments:?}");
    }
    let kept = fs::read(folder.path().join("image.bin")).expect("the image");
    assert!(kept == image_a(), "the image is changed");
}

#[test]
fn output_that_cannot_be_written() {
    for image in [None, Some(&image_a()[..]), Some(&[0xFF; 32_768])] {
        let folder = Folder::with_image(image);
        for mut command in unwritable(&to_lines(&folder)) {
            only_says(&ended(&mut command), "to_lines: ");
        }
    }
}
