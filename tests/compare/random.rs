// ANSWER-1, LANES-1, LINE-1 to LINE-6: random lines, sound and damaged, with buffers of random length and content.

use super::draw::{draw_accepted_case, draw_line, Draw, DEMAND_FIELD, NUMBER_FIELDS};
use super::engine;
use super::tally::{Outcomes, Tally};
use crate::second::lines;
use crate::second::method::Method;

const LETTERS: [u32; 14] = [1, 2, 3, 4, 5, 0, 6, 7, 255, 256, 257, 65_537, 0x8000_0001, u32::MAX];

// LETTER-1, LETTER-2, ORDER-2, LANES-3: what must come up in a run of a million: every letter, lane count and refusal of a line.
const OUTCOMES: [&str; 27] = [
    "A", "B", "C", "D", "E", "F", "2", "3", "4", "5", "6", "7", "8", "X1", "X2", "X3", "X4", "X5", "X6", "X8", "X9", "X10", "X14", "X15",
    "X16", "X17", "X19",
];
const LEAST_OF_EACH: u64 = 1_000;

// LINE-2: lines with six digits in each field of a number and with seven in the demand's must come up too.
const LEAST_OF_EACH_FIELD: u64 = 100;

// Bytes on both sides of a lent buffer.
const MARGIN: usize = 16;

// Fills a buffer and its margins with random bytes.
fn draw_buffer(draw: &mut Draw, buffer: &mut Vec<u8>) {
    let length = match draw.from(0, 7) {
        0 => draw.from(0, 63),
        1 => draw.from(60, 68),
        2 => draw.from(65, 300),
        _ => 64,
    };
    let length = length as usize + 2 * MARGIN;
    buffer.clear();
    while buffer.len() < length {
        buffer.extend_from_slice(&draw.bits().to_le_bytes());
    }
    buffer.truncate(length);
}

fn lent(buffer: &mut [u8]) -> &mut [u8] {
    let end = buffer.len() - MARGIN;
    &mut buffer[MARGIN..end]
}

// The letter or lane count that a call wrote, or its refusal.
fn outcome(result: i32, buffer: &[u8]) -> String {
    if result < 0 {
        format!("X{}", -result)
    } else {
        char::from(buffer[0]).to_string()
    }
}

// The one number of a line of 13 or 15 fields that has more than five digits, if it has six or seven.
fn long_number(line: &[u8]) -> Option<String> {
    let fields: Vec<&[u8]> = line.split(|&byte| byte == b'\t').collect();
    let mut long = NUMBER_FIELDS.iter().filter_map(|&place| Some((place, *fields.get(place)?))).filter(|(_, field)| field.len() > 5);
    let ((place, field), None) = (long.next()?, long.next()) else { return None };
    let digits = field[0] != b'0' && field.iter().all(u8::is_ascii_digit);
    (digits && field.len() <= 7 && [13, 15].contains(&fields.len())).then(|| long_number_name(field.len(), place))
}

fn long_number_name(digits: usize, place: usize) -> String {
    format!("{digits} digits in field {place}")
}

pub struct Random<'a> {
    pub method: &'a Method,
    pub draw: Draw,
    pub tally: Tally,
    pub outcomes: Outcomes,
}

impl Random<'_> {
    // CALL-1 to CALL-5, TEXT-1, TEXT-2, TEXT-5: one call over a line: results, buffers and what is around them must be equal. Letter None asks for
    // the answer.
    fn call(&mut self, line: &[u8], letter: Option<u32>, ours: &mut Vec<u8>, theirs: &mut Vec<u8>) {
        draw_buffer(&mut self.draw, ours);
        theirs.clone_from(ours);
        let (result, expected) = match letter {
            None => (engine::answer(line, lent(theirs)), lines::answer(self.method, line, lent(ours))),
            Some(letter) => (engine::lanes(line, letter, lent(theirs)), lines::lanes(self.method, line, letter, lent(ours))),
        };
        let same = result == expected && ours == theirs;
        let (ours, theirs) = (lent(ours), lent(theirs));
        self.tally.check(same, || {
            let (their_text, our_text) = (engine::text(result, theirs), engine::text(expected, ours));
            let elsewhere = if their_text == our_text { ", bytes elsewhere differ" } else { "" };
            let (line, length) = (String::from_utf8_lossy(line), ours.len());
            format!("{line:?}, letter {letter:?}, buffer of {length}: engine {their_text:?}, second {our_text:?}{elsewhere}")
        });
        self.outcomes.seen(outcome(expected, ours));
    }

    pub fn cases(&mut self, count: u64) {
        let (mut ours, mut theirs) = (Vec::new(), Vec::new());
        for number in 0..count {
            let line = draw_line(&mut self.draw, self.method);
            self.call(&line, None, &mut ours, &mut theirs);
            if let Some(name) = long_number(&line) {
                self.outcomes.seen(name);
            }
            match number % 16 {
                0 => LETTERS.iter().for_each(|&letter| self.call(&line, Some(letter), &mut ours, &mut theirs)),
                1..=3 => {
                    let letter = self.draw.from(1, 5) as u32;
                    self.call(&line, Some(letter), &mut ours, &mut theirs);
                }
                _ => {}
            }
        }
    }

    pub fn coverage(&mut self) {
        self.outcomes.cover(&mut self.tally, &OUTCOMES, LEAST_OF_EACH);
        let long = NUMBER_FIELDS.map(|place| (6, place)).into_iter().chain([(7, DEMAND_FIELD)]);
        let names: Vec<String> = long.map(|(digits, place)| long_number_name(digits, place)).collect();
        let names: Vec<&str> = names.iter().map(String::as_str).collect();
        self.outcomes.cover(&mut self.tally, &names, LEAST_OF_EACH_FIELD);
    }

    // VOLUME-2: the second implementation's own search for service volumes against trying every demand.
    pub fn every_demand(&mut self, count: u64) {
        for _ in 0..count {
            let case = draw_accepted_case(&mut self.draw, self.method);
            let curve = self.method.curve(&case).expect("the case is accepted");
            let by_runs = self.method.service_volumes(&case, &curve);
            let by_every = self.method.service_volumes_by_every_demand(&case, &curve);
            self.tally.equal(by_runs, by_every, || format!("service volumes of the second implementation, {case:?}"));
        }
    }
}
