// CALL-5, TEXT-5: buffers of numbers as they are lent to a call, with numbers on both sides that it must keep, and what a call makes of them.

use super::draw::Draw;
use super::tally::Tally;

// Numbers on both sides of a lent buffer.
const MARGIN: usize = 8;

// A buffer and its margins, as they are before a call.
pub struct Lent(Vec<u64>);

// What a call hands back, and the buffer and its margins afterwards.
#[derive(PartialEq)]
pub struct After {
    pub result: i32,
    buffer: Vec<u64>,
}

// A length: as long as the answer needs, or shorter, or longer.
pub fn draw_length(draw: &mut Draw, needed: usize) -> usize {
    let needed = needed as u64;
    let length = match draw.from(0, 31) {
        0 => draw.one_of(&[0, needed - 1]),
        1 => draw.from(0, needed - 1),
        2..=9 => draw.from(needed + 1, 3 * needed),
        _ => needed,
    };
    length as usize
}

impl Lent {
    // A buffer of random content.
    pub fn draw(draw: &mut Draw, length: usize) -> Lent {
        Lent((0..length + 2 * MARGIN).map(|_| draw.bits()).collect())
    }

    pub fn length(&self) -> usize {
        self.0.len() - 2 * MARGIN
    }

    // What a call makes of a copy.
    pub fn after(&self, call: impl FnOnce(&mut [u64]) -> i32) -> After {
        let (mut buffer, end) = (self.0.clone(), self.0.len() - MARGIN);
        After { result: call(&mut buffer[MARGIN..end]), buffer }
    }

    // A result, and the buffer with these numbers written from its start and all else kept.
    pub fn by_figures(&self, result: i32, written: &[u64]) -> After {
        self.after(|lent| {
            lent[..written.len()].copy_from_slice(written);
            result
        })
    }
}

impl After {
    // The buffer without its margins.
    pub fn lent(&self) -> &[u64] {
        &self.buffer[MARGIN..self.buffer.len() - MARGIN]
    }

    // The results, and the first number that differs, counted from the start of the lent buffer.
    fn beside(&self, other: &After) -> String {
        let results = format!("results {} and {}", self.result, other.result);
        match self.buffer.iter().zip(&other.buffer).position(|(own, others)| own != others) {
            Some(at) => format!("{results}, number {} is {} and {}", at as i64 - MARGIN as i64, self.buffer[at], other.buffer[at]),
            None => results,
        }
    }

    // Results, buffers and margins must be equal.
    pub fn same(&self, other: &After, tally: &mut Tally, what: impl FnOnce() -> String) {
        tally.check(self == other, || format!("{}: {}", what(), self.beside(other)));
    }
}
