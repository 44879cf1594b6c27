// CALL-7: whole days in one call, some with their figures, and random lines with random demands and buffers of random length and content. Each
// position of a random day is also compared with the engine's own single answer (DAY-1).

use super::draw::{accepted, draw_demand, draw_line, has_six_digits, Draw, DEMAND_FIELD};
use super::engine;
use super::lent::{After, Lent};
use super::tally::{Outcomes, Tally};
use crate::second::day::{self, POSITION};
use crate::second::lines;
use crate::second::method::{Case, Curve, Method, GREATEST_DEMAND};

const fn refused(number: u64) -> [u64; POSITION] {
    [number, 0, 0, 0, 0, 0, 0, 0, 0, 0, 0, 0]
}

// A line, and its answers to the demands 0, 2,000, 2,643, one more than the service volume of C, 99,999, 100,000 and
// 999,999.
// 2,643 × 1.1 / (0.92 × 2) = 1,580.05; w = ((158,100 − 156,872) / (230,782 − 156,872))² = 0.0002761; S = 60,782 − 9,497.1w = 60,779.38;
// 15,810,000 / S = 260.12. 99,999 × 1.1 / (0.92 × 2) = 59,782.01, with 100,000 it is 59,782.61, with 999,999 it is 597,825.49.
pub const LINE: &str = "F E 75400 110 20 0 D 24 2 2000 920 50 R";
pub const AT_0: [u64; POSITION] = [0, 1, 60_782, 230_782, 0, 60_782, 0, 1_117, 1_829, 2_642, 3_360, 3_858];
pub const AT_2000: [u64; POSITION] = [0, 3, 60_782, 230_782, 1_196, 60_782, 197, 1_117, 1_829, 2_642, 3_360, 3_858];
pub const AT_2643: [u64; POSITION] = [0, 4, 60_782, 230_782, 1_581, 60_779, 261, 1_117, 1_829, 2_642, 3_360, 3_858];
pub const AT_99999: [u64; POSITION] = [0, 6, 60_782, 230_782, 59_783, 0, 0, 1_117, 1_829, 2_642, 3_360, 3_858];
pub const AT_100000: [u64; POSITION] = AT_99999;
pub const AT_999999: [u64; POSITION] = [0, 6, 60_782, 230_782, 597_826, 0, 0, 1_117, 1_829, 2_642, 3_360, 3_858];

// WEATHER-2, WEATHER-3: a given speed of 75,000 with the factors 950 and 900.
pub const SNOW_AT_3000: [u64; POSITION] = [0, 3, 71_250, 216_000, 1_500, 66_271, 227, 1_566, 2_506, 3_294, 3_884, 4_320];
const SNOW_AT_100000: [u64; POSITION] = [0, 6, 71_250, 216_000, 50_000, 0, 0, 1_566, 2_506, 3_294, 3_884, 4_320];

// DAY-1, DAY-2: lines, demands and what each position gets. Blanks stand for tabs.
const DAYS: &[(&str, &[u64], &[[u64; POSITION]])] = &[
    (LINE, &[2_000, 1_000_000, 2_643], &[AT_2000, refused(7), AT_2643]),
    (LINE, &[99_999, 100_000, 999_999, 1_000_000, 2_000], &[AT_99999, AT_100000, AT_999999, refused(7), AT_2000]),
    (LINE, &[2_000], &[AT_2000]),
    (LINE, &[u64::MAX], &[refused(7)]),
    // REFUSAL-7, SAFE-1: 2,000 once cut to 32 bits; a product past 64 bits.
    (LINE, &[(1 << 32) + 2_000, u64::MAX / 1_100 + 1], &[refused(7), refused(7)]),
    (LINE, &[0; 24], &[AT_0; 24]),
    // DAY-1: the line's own demand is not used.
    ("F E 75400 110 20 0 D 24 2 99999 920 50 R", &[0, 99_999, 2_000], &[AT_0, AT_99999, AT_2000]),
    ("F E 75400 110 20 0 D 24 2 999999 920 50 R", &[0, 999_999, 2_000], &[AT_0, AT_999999, AT_2000]),
    // A line of 15 fields; clear weather written out.
    ("F G 75000 120 60 60 D 0 2 0 1000 0 L 950 900", &[3_000, 1_000_000, 100_000], &[SNOW_AT_3000, refused(7), SNOW_AT_100000]),
    ("F E 75400 110 20 0 D 24 2 2000 920 50 R 1000 1000", &[2_000], &[AT_2000]),
    // DAY-3, REFUSAL-7: 7 is before 8, 9, 19 and 10 and after 1 to 6.
    ("F G 75000 120 60 60 D 0 2 0 249 0 L", &[1_000_000, 5], &[refused(7), refused(8)]),
    ("F G 75000 120 60 60 D 0 2 0 249 0 L", &[100_000, 5], &[refused(8), refused(8)]),
    ("F G 75000 120 60 60 D 0 2 0 1000 1001 L", &[5, u64::MAX, 999_999], &[refused(9), refused(7), refused(9)]),
    ("F G 54999 120 60 60 D 0 2 0 1000 0 L", &[1_000_000, 100_000, 1_000_000], &[refused(7), refused(10), refused(7)]),
    ("F G 75000 120 60 60 D 0 2 0 1000 0 L 499 1000", &[1_000_000, 999_999, 5], &[refused(7), refused(19), refused(19)]),
    ("M G 60000 120 60 60 D 0 2 0 1000 0 L 1000 999", &[1_000_000, 999_999, 5], &[refused(7), refused(19), refused(19)]),
    ("F G 75000 120 60 60 D 0 1 0 249 0 L", &[1_000_000, 5], &[refused(6), refused(6)]),
    ("F G 29999 120 60 60 D 0 2 0 1000 0 L", &[u64::MAX; 24], &[refused(1); 24]),
];

pub const MALFORMED: &str = "F E 75400 110 20 0 D 24 2 2000 920 50 R ";

// REFUSAL-18, CALL-4: calls that are refused as a whole: line, count of demands, length of the buffer, result.
const REFUSED: &[(&str, usize, usize, i32)] = &[
    (LINE, 0, 0, -18),
    (LINE, 0, 12, -18),
    (LINE, 1, 0, -18),
    (LINE, 1, 11, -18),
    (LINE, 3, 35, -18),
    (LINE, 24, 287, -18),
    (LINE, 25, 300, -18),
    // 18 is before 1 and before 15.
    ("F G 29999 120 60 60 D 0 2 0 1000 0 L", 0, 12, -18),
    ("F G 29999 120 60 60 D 0 2 0 1000 0 L", 25, 300, -18),
    (MALFORMED, 0, 12, -18),
    (MALFORMED, 3, 35, -18),
    (MALFORMED, 25, 300, -18),
    (MALFORMED, 3, 36, -15),
    (MALFORMED, 24, 293, -15),
];

// REFUSAL-15: malformed lines. The line's own demand has to be well formed, though it is not used.
pub const MALFORMED_LINES: [&str; 6] = [
    "",
    "F E 75400 110 20 0 D 24 2  920 50 R",
    "F E 75400 110 20 0 D 24 2 02000 920 50 R",
    "F E 75400 110 20 0 D 24 2 1000000 920 50 R",
    "F E 75400 110 20 0 D 24 2 099999 920 50 R",
    "F E 75400 110 20 0 D 24 2 2000 920 50 R 1000",
];

// What must come up in a run of 100,000: results of refused calls, refusals and letters of positions, and demands of six digits.
const OUTCOMES: [&str; 20] =
    ["-15", "-18", "1", "2", "3", "4", "5", "6", "7", "8", "9", "10", "19", "A", "B", "C", "D", "E", "F", SIX_DIGITS];
pub const SIX_DIGITS: &str = "six digits answered";
const LEAST_OF_EACH: u64 = 1_000;

// SAFE-1: demands that a narrower number or a product may not hold, each with its neighbours.
const LARGE: [u64; 4] = [1 << 32, 1 << 63, u64::MAX / 3_000, u64::MAX - 1];

// A call, with the buffer as it is before.
struct Call {
    line: Vec<u8>,
    demands: Vec<u64>,
    buffer: Lent,
}

impl Call {
    fn by_engine(&self) -> After {
        self.buffer.after(|answers| engine::day(&self.line, &self.demands, answers))
    }

    fn by_second(&self, method: &Method) -> After {
        self.buffer.after(|answers| day::day(method, &self.line, &self.demands, answers))
    }

    fn name(&self) -> String {
        let (line, length) = (String::from_utf8_lossy(&self.line), self.buffer.length());
        format!("{line:?}, demands {:?}, buffer of {length}", self.demands)
    }
}

fn position(after: &After, place: usize) -> &[u64] {
    &after.lent()[POSITION * place..][..POSITION]
}

// As long as the answers need, or shorter, or longer.
fn draw_length(draw: &mut Draw, count: usize) -> usize {
    let needed = POSITION * count;
    match draw.from(0, 15) {
        0 => draw.one_of(&[0, count, needed.saturating_sub(1), needed.saturating_sub(POSITION)]),
        1 => draw.from(0, needed as u64) as usize,
        2..=5 => draw.from(needed as u64 + 1, 26 * POSITION as u64 + 5) as usize,
        _ => needed,
    }
}

fn draw_count(draw: &mut Draw) -> u64 {
    match draw.from(0, 7) {
        0 => draw.one_of(&[0, 1, 24, 25]),
        1 => draw.from(0, 26),
        _ => draw.from(1, 24),
    }
}

// A demand for a case, which comes with its curve if it is accepted.
fn draw_any_demand(draw: &mut Draw, method: &Method, accepted: &Option<(Case, Curve)>) -> u64 {
    match (draw.from(0, 8), accepted) {
        (0, _) => draw.one_of(&[0, 1, 99_999, 100_000, GREATEST_DEMAND, GREATEST_DEMAND + 1, GREATEST_DEMAND + 2]),
        (1, _) => draw.one_of(&LARGE) - 1 + draw.from(0, 2),
        (2, _) => draw.bits() >> draw.from(0, 63),
        (3, _) | (_, None) => draw.from(0, 19_999),
        (_, Some((case, curve))) => draw_demand(draw, method, case, curve),
    }
}

fn draw_call(draw: &mut Draw, method: &Method) -> Call {
    let line = draw_line(draw, method);
    let accepted = accepted(method, &line);
    let count = draw_count(draw);
    let demands: Vec<u64> = (0..count).map(|_| draw_any_demand(draw, method, &accepted)).collect();
    let length = draw_length(draw, demands.len());
    Call { line, demands, buffer: Lent::draw(draw, length) }
}

// A well-formed line with another demand.
fn with_demand(line: &[u8], demand: u64) -> Vec<u8> {
    let digits = demand.to_string();
    let mut fields: Vec<&[u8]> = line.split(|&byte| byte == b'\t').collect();
    fields[DEMAND_FIELD] = digits.as_bytes();
    fields.join(&b'\t')
}

// The text of a single answer as the numbers of a position.
fn numbers(text: &str) -> Vec<u64> {
    let mut fields = text.split('\t');
    let first = fields.next();
    let others = fields.map(|field| field.parse().unwrap_or(u64::MAX));
    match ["A", "B", "C", "D", "E", "F"].iter().position(|&letter| Some(letter) == first) {
        Some(place) => [0, place as u64 + 1].into_iter().chain(others).collect(),
        None => others.chain([0; POSITION - 1]).collect(),
    }
}

// DAY-1, DAY-3: what the engine's single call answers with a demand. No line can hold one above 999,999: it gets 7, unless 1 to 6 refuse the line.
pub fn single(line: &[u8], demand: u64) -> Vec<u64> {
    let answered = numbers(&engine::answer_text(&with_demand(line, demand.min(GREATEST_DEMAND))));
    if demand > GREATEST_DEMAND && !(1..=6).contains(&answered[0]) {
        return refused(7).to_vec();
    }
    answered
}

// The letter of a position, or its refusal.
fn outcome(position: &[u64]) -> String {
    match position[0] {
        0 => lines::letter_name(position[1] as u32).to_string(),
        number => number.to_string(),
    }
}

pub struct Days<'a> {
    pub method: &'a Method,
    pub draw: Draw,
    pub tally: Tally,
    pub outcomes: Outcomes,
}

impl Days<'_> {
    fn same(&mut self, call: &Call, whose: &str, left: &After, right: &After) {
        left.same(right, &mut self.tally, || format!("day, {}: {whose}", call.name()));
    }

    fn figure(&mut self, line: &str, demands: &[u64], length: usize, result: i32, positions: &[[u64; POSITION]]) {
        let line = line.replace(' ', "\t").into_bytes();
        let call = Call { line, demands: demands.to_vec(), buffer: Lent::draw(&mut self.draw, length) };
        let expected = call.buffer.by_figures(result, &positions.concat());
        self.same(&call, "engine and figures", &call.by_engine(), &expected);
        self.same(&call, "second and figures", &call.by_second(self.method), &expected);
    }

    pub fn figures(&mut self) {
        for &(line, demands, positions) in DAYS {
            for more in [0, 1, 17] {
                self.figure(line, demands, POSITION * demands.len() + more, demands.len() as i32, positions);
            }
        }
        for &(line, count, length, result) in REFUSED {
            self.figure(line, &vec![5; count], length, result, &[]);
        }
        for line in MALFORMED_LINES {
            self.figure(line, &[5], POSITION, -15, &[]);
        }
    }

    fn positions(&mut self, call: &Call, theirs: &After, ours: &After) {
        for (place, &demand) in call.demands.iter().enumerate() {
            let (answered, single) = (position(theirs, place), single(&call.line, demand));
            self.tally.check(answered == single, || {
                format!("day, {}: position {place} is {answered:?}, the single call answers {single:?}", call.name())
            });
            self.outcomes.seen(outcome(position(ours, place)));
            if position(ours, place)[0] == 0 && has_six_digits(demand) {
                self.outcomes.seen(SIX_DIGITS.to_string());
            }
        }
    }

    pub fn random(&mut self, count: u64) {
        for _ in 0..count {
            let call = draw_call(&mut self.draw, self.method);
            let (theirs, ours) = (call.by_engine(), call.by_second(self.method));
            self.same(&call, "engine and second", &theirs, &ours);
            if ours.result < 0 {
                self.outcomes.seen(ours.result.to_string());
            } else {
                self.positions(&call, &theirs, &ours);
            }
        }
    }

    pub fn coverage(&mut self) {
        self.outcomes.cover(&mut self.tally, &OUTCOMES, LEAST_OF_EACH);
    }
}
