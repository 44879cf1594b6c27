// The vectors that tests/calls.c and rt ci read, as the second implementation answers them.
//   crates/los/stdout   ANSWER-1, LOS-2: the answers to the lines of crates/los/stdin
//   tests/lanes.tsv     LANES-1: a row's first field is the lane count, or minus the refusal number; letter number and line follow
//   tests/surveys.tsv   SURVEY-3: a row's first field is the speed, or minus the refusal number; unit, the float's bits, cars and flow follow
// A row that begins with # is a comment.

use super::engine;
use super::tally::Tally;
use crate::second::lines;
use crate::second::method::Method;
use crate::second::survey::{self, Unit};
use std::process::exit;

pub const INPUT: &str = "crates/los/stdin";
const FILES: [(&str, fn(&Method) -> Vec<u8>); 3] =
    [("crates/los/stdout", answers), ("tests/lanes.tsv", lanes), ("tests/surveys.tsv", surveys)];

fn fail(what: &str) -> ! {
    println!("vectors: {what}");
    exit(1);
}

pub fn read(path: &str) -> Vec<u8> {
    std::fs::read(path).unwrap_or_else(|error| fail(&format!("{path}: {error}")))
}

fn answers(method: &Method) -> Vec<u8> {
    let input = read(INPUT);
    lines::input_lines(&input).iter().flat_map(|line| lines::los_line(method, line).into_bytes()).collect()
}

// The file with the first field of each row worked out anew from the others.
fn with_first_fields(path: &str, first: impl Fn(&[u8]) -> Option<i32>) -> Vec<u8> {
    let mut rows = Vec::new();
    for row in lines::input_lines(&read(path)) {
        if row.starts_with(b"#") {
            rows.extend_from_slice(row);
        } else {
            let (_, rest) = cut(row).unwrap_or_else(|| fail(&format!("{path}: a row has one field")));
            let number = first(rest).unwrap_or_else(|| fail(&format!("{path}: {}", String::from_utf8_lossy(row))));
            rows.extend_from_slice(format!("{number}\t").as_bytes());
            rows.extend_from_slice(rest);
        }
        rows.push(b'\n');
    }
    rows
}

// The first field of a row, and what follows its tab.
fn cut(row: &[u8]) -> Option<(&[u8], &[u8])> {
    let tab = row.iter().position(|&byte| byte == b'\t')?;
    Some((&row[..tab], &row[tab + 1..]))
}

fn number(field: &[u8]) -> Option<u32> {
    std::str::from_utf8(field).ok()?.parse().ok()
}

fn lanes(method: &Method) -> Vec<u8> {
    with_first_fields("tests/lanes.tsv", |rest| {
        let (letter, line) = cut(rest)?;
        let mut buffer = [0; 64];
        let result = lines::lanes(method, line, number(letter)?, &mut buffer);
        if result < 0 {
            Some(result)
        } else {
            engine::text(result, &buffer).parse().ok()
        }
    })
}

fn surveys(_: &Method) -> Vec<u8> {
    with_first_fields("tests/surveys.tsv", |rest| {
        let fields: Vec<&str> = std::str::from_utf8(rest).ok()?.split('\t').collect();
        let [unit, bits, cars, flow] = fields[..] else { return None };
        let unit = match unit {
            "mph" => Unit::MilesPerHour,
            "kmh" => Unit::KilometresPerHour,
            _ => return None,
        };
        Some(survey::speed(u32::from_str_radix(bits, 16).ok()?, unit, cars.parse().ok()?, flow.parse().ok()?))
    })
}

// The vectors must be what the second implementation answers.
pub fn check(method: &Method, tally: &mut Tally) {
    for (path, worked_out) in FILES {
        let (held, expected) = (read(path), worked_out(method));
        tally.check(held == expected, || format!("{path} is not what the second implementation writes"));
        let (held, expected) = (lines::input_lines(&held), lines::input_lines(&expected));
        for (number, (held, expected)) in held.iter().zip(&expected).enumerate() {
            tally.check(held == expected, || {
                format!("{path}, row {}: {:?}, second {:?}", number + 1, String::from_utf8_lossy(held), String::from_utf8_lossy(expected))
            });
        }
    }
}

// Writes the vectors anew, and says how many rows are no longer what stood in their place.
pub fn write(method: &Method) {
    for (path, worked_out) in FILES {
        let (held, expected) = (read(path), worked_out(method));
        let rows = lines::input_lines(&expected);
        let same = lines::input_lines(&held).iter().zip(&rows).filter(|(held, row)| held == row).count();
        println!("{path}: {} of {} rows changed", rows.len() - same, rows.len());
        std::fs::write(path, expected).unwrap_or_else(|error| fail(&format!("{path}: {error}")));
    }
}
