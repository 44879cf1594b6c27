// LOS-1 to LOS-3, TEXT-2, TEXT-3: random lines through the program los. The input is bytes: a damaged line may hold a newline, and is then two lines
// to both.

use super::draw::{draw_line, Draw};
use super::tally::Tally;
use crate::second::lines;
use crate::second::method::Method;
use std::io::{Read, Write};
use std::process::{Command, Stdio};
use std::thread;

const LINES: u64 = 250_000;
const LINE: &[u8] = b"F\tE\t75400\t110\t20\t0\tD\t24\t2\t2000\t920\t50\tR";
// LINE-5: at and past 80 bytes.
const LONG: [u64; 8] = [79, 80, 81, 82, 1_000, 4_096, 65_536, 300_000];

// LOS-3: writes an input in pieces of random length, so that lines lie across them.
fn feed(mut pipe: impl Write, input: &[u8], mut draw: Draw) {
    let mut rest = input;
    while !rest.is_empty() {
        let piece = (draw.from(1, 30_000) as usize).min(rest.len());
        if pipe.write_all(&rest[..piece]).is_err() {
            return;
        }
        rest = &rest[piece..];
    }
}

fn run(path: &str, input: &[u8], seed: u64) -> std::io::Result<(Vec<u8>, bool)> {
    let mut child = Command::new(path).stdin(Stdio::piped()).stdout(Stdio::piped()).spawn()?;
    let (pipe, mut output) = (child.stdin.take().expect("piped"), Vec::new());
    thread::scope(|scope| {
        scope.spawn(|| feed(pipe, input, Draw(seed)));
        child.stdout.take().expect("piped").read_to_end(&mut output)
    })?;
    Ok((output, child.wait()?.success()))
}

fn many_lines(method: &Method, draw: &mut Draw) -> Vec<u8> {
    let mut input = Vec::new();
    for number in 0..LINES {
        let mut line = draw_line(draw, method);
        if number % 1_000 == 0 {
            let (length, filling) = (draw.one_of(&LONG), draw.one_of(b"\t0 L\r"));
            line.resize(line.len().max(length as usize), filling);
        }
        input.extend_from_slice(&line);
        input.push(b'\n');
    }
    input
}

fn compare(method: &Method, tally: &mut Tally, path: &str, input: &[u8]) {
    let (output, success) = match run(path, input, input.len() as u64) {
        Ok(outcome) => outcome,
        Err(error) => return tally.check(false, || format!("{path}: {error}")),
    };
    tally.check(success, || format!("{path} does not end with 0"));
    let asked = lines::input_lines(input);
    let mut printed = output.split_inclusive(|&byte| byte == b'\n');
    for (number, line) in asked.iter().enumerate() {
        let (theirs, ours) = (printed.next().unwrap_or(b""), lines::los_line(method, line));
        tally.check(theirs == ours.as_bytes(), || {
            let (start, theirs) = (String::from_utf8_lossy(&line[..line.len().min(100)]), String::from_utf8_lossy(theirs));
            format!("line {} of {}, {start:?}: los {theirs:?}, second {ours:?}", number + 1, asked.len())
        });
    }
    let more = printed.count();
    tally.check(more == 0, || format!("los prints {more} lines more than the input of {} has", asked.len()));
}

pub fn random_lines(method: &Method, draw: &mut Draw, tally: &mut Tally, path: &str) {
    let mut input = many_lines(method, draw);
    input.extend_from_slice(LINE);
    compare(method, tally, path, &input);
    // LOS-1: ends by themselves, after one line, after two lines and before a line.
    for ending in [&b""[..], b"\n", b"\n\n", b"\r\n", b"\0", b"\n\0"] {
        for input in [ending, &[LINE, ending].concat(), &[LINE, b"\n", LINE, ending].concat(), &[ending, LINE].concat()] {
            compare(method, tally, path, input);
        }
    }
}
