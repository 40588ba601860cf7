//! Lists and their reports.
use crate::machine::{Answer, Machine, Operation, KINDS};

/// Why a line is turned back, by its number.
pub type Refusal = u32;

/// The number that a value spells.
pub fn value(text: &str) -> Option<u32> {
    let number = u32::from_str_radix(text, 16).ok()?;
    (format!("{number:x}") == text).then_some(number)
}

/// What a line says, without its newline.
pub fn line(text: &[u8]) -> Result<Operation, Refusal> {
    // A byte that is no ASCII is no digit, no name and no comma, so any other such byte will do.
    let text: String = text.iter().map(|b| char::from(*b)).collect();
    let fields: Vec<&str> = text.split(',').collect();
    let &[name, a, b, c] = fields.as_slice() else {
        return Err(3);
    };
    let (Some(a), Some(b), Some(c)) = (value(a), value(b), value(c)) else {
        return Err(4);
    };
    let (kind, _, used) = *KINDS.iter().find(|k| k.1 == name).ok_or(5_u32)?;
    if [a, b, c][used..].iter().any(|field| *field != 0) {
        return Err(6);
    }
    Ok(Operation { kind, a, b, c })
}

/// The lines of a list after its names: each an operation, up to the end or a refusal.
pub fn lines(list: &[u8]) -> Vec<Result<Operation, Refusal>> {
    let mut read = Vec::new();
    let mut rest = list;
    while !rest.is_empty() {
        let Some(end) = rest.iter().position(|b| *b == b'\n') else {
            read.push(Err(3));
            break;
        };
        read.push(line(&rest[..end]));
        if read.last().is_some_and(Result::is_err) {
            break;
        }
        rest = &rest[end + 1..];
    }
    read
}

fn row(report: &mut String, line: usize, name: &str, answer: Answer) {
    let (word, number) = match answer {
        Answer::Ok(v) => ("ok", v),
        Answer::Fault(n) => ("fault", n),
        Answer::Refused(n) => ("refused", n),
    };
    report.push_str(&format!("{line:x},{name},{word},{number:x}\n"));
}

/// The report of a list on an image file, with 8 contexts, so 9 rows, and root 0.
pub fn report(image: Option<&[u8]>, list: &[u8]) -> String {
    let mut report = String::from("line,op,answer,value\n");
    let image = image.filter(|bytes| bytes.len() <= 32_768).unwrap_or(&[]);
    let (answer, mut machine) = Machine::start(image, &[0; 9 * 1024], 0);
    if let Answer::Refused(_) = answer {
        row(&mut report, 0, "start", answer);
        return report;
    }
    if list.len() > 65_536 {
        row(&mut report, 1, "-", Answer::Refused(1));
        return report;
    }
    let Some(rest) = list.strip_prefix(b"op,a,b,c\n") else {
        row(&mut report, 1, "-", Answer::Refused(2));
        return report;
    };
    for (i, read) in lines(rest).into_iter().enumerate() {
        match read {
            Ok(operation) => {
                let name = KINDS[operation.kind as usize].1;
                row(&mut report, i + 2, name, machine.step(&operation));
            }
            Err(refusal) => row(&mut report, i + 2, "-", Answer::Refused(refusal)),
        }
    }
    report
}
