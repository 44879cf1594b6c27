// CALL-10: how many demands the shipped search for the five service volumes tries, as the call that counts them tells: some cases
// with their figures, the vectors, wide freeways, and random lines. What it must count is had from the second implementation's service
// volumes.

use super::draw::{append_line, draw_line, Draw};
use super::engine;
use super::tally::Tally;
use super::vectors;
use crate::second::lines;
use crate::second::method::{Case, Kind, Median, Method, Terrain, Way, Weather, GREATEST_DEMAND};

// TRIES-3: for the five together.
const MOST: i32 = 80;

// TRIES-3: lines and what the call hands back, the sum of what is tried for E, D, C, B and A. Blanks stand for tabs. The volumes of the first two
// are 1117 1829 2642 3360 3858, those of the third 6178 10054 13620 16449 18604.
const FIGURES: &[(&str, i32)] = &[
    ("F E 75400 110 20 0 D 24 2 2000 920 50 R", 20 + 12 + 12 + 12 + 11),
    ("F E 75400 110 20 0 D 24 2 999999 920 50 R", 20 + 12 + 12 + 12 + 11),
    ("F G 72500 120 60 60 D 0 8 0 969 0 L", 20 + 15 + 15 + 14 + 14),
    ("F E 60000 120 0 0 D 6 2 2000 1000 0 L", -10),
    ("F G 29999 120 60 60 D 0 2 0 249 0 L", -1),
    ("F G 75000 120 60 60 D 0 2 0 1000 0 L 499 1000", -19),
    ("F G 75000 120 60 60 D 0 2 1000000 1000 0 L", -15),
    ("", -15),
];

// TRIES-1: halving finds the volume among the numbers from 0 to the end: each try halves what is left, and tells whether the volume is in the upper
// half, which begins at the demand that is tried.
fn tries_up_to(volume: u64, end: u64) -> i32 {
    fn tries_among(left: u64, place: u64) -> i32 {
        let lower = left / 2;
        match left {
            1 => 0,
            _ if place < lower => 1 + tries_among(lower, place),
            _ => 1 + tries_among(left - lower, place - lower),
        }
    }
    tries_among(end + 1, volume)
}

// TRIES-2: E up to the greatest demand, then each better letter up to the volume found before.
fn expected_tries(volumes: [u64; 5]) -> i32 {
    let ends = [volumes[1], volumes[2], volumes[3], volumes[4], GREATEST_DEMAND];
    volumes.iter().zip(ends).map(|(&volume, end)| tries_up_to(volume, end)).sum()
}

// What the call must hand back.
fn expected(method: &Method, line: &[u8]) -> i32 {
    let answer = lines::parse(line).ok_or(lines::MALFORMED).and_then(|case| method.answer(&case));
    match answer {
        Ok(answer) => expected_tries(answer.service_volumes),
        Err(refusal) => -(refusal as i32),
    }
}

pub struct Tries<'a> {
    pub method: &'a Method,
    pub tally: Tally,
    // The most that were tried, for which line, and how many lines were counted.
    pub most: i32,
    pub most_for: String,
    pub counted: u64,
}

impl Tries<'_> {
    fn line(&mut self, line: &[u8]) {
        let got = engine::tries(line);
        self.tally.equal(got, expected(self.method, line), || format!("tries of {:?}", String::from_utf8_lossy(line)));
        self.tally.check(got <= MOST && got != 0, || format!("{got} tries of {:?}", String::from_utf8_lossy(line)));
        self.counted += u64::from(got > 0);
        if got > self.most {
            self.most = got;
            self.most_for = String::from_utf8_lossy(line).replace('\t', " ");
        }
    }

    pub fn figures(&mut self) {
        for &(line, figure) in FIGURES {
            let line = line.replace(' ', "\t");
            self.tally.equal(engine::tries(line.as_bytes()), figure, || format!("figure of {line:?}"));
            self.line(line.as_bytes());
        }
    }

    pub fn vectors(&mut self) {
        let input = vectors::read(vectors::INPUT);
        for line in lines::input_lines(&input) {
            self.line(line);
        }
    }

    // TRIES-3: the largest volumes: 8 lanes, peak-hour factors from 900 on, few heavy vehicles.
    pub fn wide_freeways(&mut self) {
        let mut text = String::new();
        for speed in (55_000..=75_000).step_by(500) {
            for factor in 900..=1_000 {
                for share in 0..=40 {
                    text.clear();
                    append_line(&mut text, &wide_freeway(speed, factor, share));
                    self.line(text.as_bytes());
                }
            }
        }
    }

    pub fn random(&mut self, draw: &mut Draw, count: u64) {
        for _ in 0..count {
            let line = draw_line(draw, self.method);
            self.line(&line);
        }
    }

    pub fn print(&self) {
        println!("most demands tried for a case, of {} cases: {}, for {}", self.counted, self.most, self.most_for);
    }
}

fn wide_freeway(speed: u64, factor: u64, share: u64) -> Case {
    Case {
        kind: Kind::Freeway,
        way: Way::Given,
        speed,
        width: 120,
        right: 60,
        left: 60,
        median: Median::Divided,
        access: 0,
        lanes: 8,
        demand: 0,
        factor,
        share,
        terrain: Terrain::Level,
        weather: Weather::CLEAR,
    }
}
