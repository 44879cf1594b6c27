// A whole day in one call: one road with up to 24 demands, each answered by itself.

use super::lines::{parse, MALFORMED};
use super::method::{Answer, Case, Method, Refusal};

const MOST_DEMANDS: usize = 24;
const COUNTS_UNFIT: Refusal = 18;

// DAY-2, DAY-3: the numbers of one position, the refusal or 0, then the eleven figures of the answer or zeros.
pub const POSITION: usize = 12;

fn numbers(answer: Result<Answer, Refusal>) -> [u64; POSITION] {
    let mut numbers = [0; POSITION];
    match answer {
        Ok(answer) => numbers[1..].copy_from_slice(&answer.figures()),
        Err(number) => numbers[0] = number as u64,
    }
    numbers
}

// DAY-1, CALL-7, CALL-4, REFUSAL-18: hands back the count of demands, or minus the first refusal of the whole call and writes nothing: 18, 15.
pub fn day(method: &Method, line: &[u8], demands: &[u64], answers: &mut [u64]) -> i32 {
    if !(1..=MOST_DEMANDS).contains(&demands.len()) || answers.len() < POSITION * demands.len() {
        return -COUNTS_UNFIT;
    }
    let Some(case) = parse(line) else { return -MALFORMED };
    for (&demand, position) in demands.iter().zip(answers.chunks_exact_mut(POSITION)) {
        position.copy_from_slice(&numbers(method.answer(&Case { demand, ..case })));
    }
    demands.len() as i32
}
