//! The programs `to_lines` and `to_image` against the model, on generated images and lines, whole and
//! damaged, and against each other on all that is accepted.
use compare::{cases, keep, Tally};
use model::{generate_lines, lines};

/// That what a program printed for a case is what it has to be.
fn must_be_same(name: &str, case: u64, given: &[u8], expected: &[u8], found: &[u8]) {
    if found != expected {
        let files = [("given", given), ("expected", expected), ("found", found)];
        let folder = keep(name, case, &files);
        panic!("{name}: they differ; they are in {}", folder.display());
    }
}

/// The refusal that was printed and which line has it, the first ones by their numbers; none if an
/// image was, or its lines.
fn refusal(printed: &[u8]) -> Option<String> {
    let text = std::str::from_utf8(printed).ok()?;
    let (line, refusal) = text.strip_suffix('\n')?.split_once(',')?;
    let line = match line {
        "0" | "1" => line,
        _ => "n",
    };
    ["12", "13"]
        .contains(&refusal)
        .then(|| format!("{refusal} at line {line}"))
}

/// An image of this many bytes, by how many pages it has.
fn pages(bytes: usize) -> String {
    format!("pages: {}", bytes / 4096)
}

#[test]
fn images_to_lines() {
    let mut seen = Tally::new();
    for (case, mut random) in cases(400) {
        let file = generate_lines::image_file(&mut random);
        let image = file.as_deref().unwrap_or_default();
        let found = programs::to_lines(file.as_deref());
        let expected = lines::to_lines(file.as_deref());
        must_be_same("to_lines", case, image, &expected, &found);
        if let Some(refusal) = refusal(&found) {
            seen.add(refusal);
            continue;
        }
        let back = programs::to_image(&found);
        must_be_same("to_lines-and-back", case, &found, image, &back);
        seen.add(pages(image.len()));
    }
    let images = (1..=8).map(|n| pages(4096 * n));
    seen.must_have("images", images.chain(["13 at line 0".to_string()]));
}

#[test]
fn lines_to_images() {
    let mut seen = Tally::new();
    for (case, mut random) in cases(2000) {
        let input = generate_lines::input(&mut random);
        let found = programs::to_image(&input);
        let expected = lines::to_image(&input);
        must_be_same("to_image", case, &input, &expected, &found);
        if let Some(refusal) = refusal(&found) {
            seen.add(refusal);
            continue;
        }
        let back = programs::to_lines(Some(&found));
        must_be_same("to_image-and-back", case, &found, &input, &back);
        seen.add(pages(found.len()));
    }
    let images = (1..=8).map(|n| pages(4096 * n));
    let refusals = [
        "12 at line 1",
        "12 at line n",
        "13 at line n",
        "13 at line 0",
    ];
    let refusals = refusals.map(String::from);
    seen.must_have("lines", images.chain(refusals));
}
