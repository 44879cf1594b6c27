// Random cases near every limit of the method, and lines damaged on purpose. The same seed draws the same cases.

use crate::second::lines;
use crate::second::method::{passenger_cars, planner_refusal, Case, Curve, Kind, Median, Method, Terrain, Way, Weather, GREATEST_DEMAND};
use std::fmt::Write;

// LINE-1: the fields of numbers on a line, from 0 on, and of these the demand's.
pub const NUMBER_FIELDS: [usize; 11] = [2, 3, 4, 5, 7, 8, DEMAND_FIELD, 10, 11, 13, 14];
pub const DEMAND_FIELD: usize = 9;

// LINE-7: whether an older reader has no room for a demand.
pub fn has_six_digits(demand: u64) -> bool {
    (100_000..=GREATEST_DEMAND).contains(&demand)
}

// Splitmix64.
pub struct Draw(pub u64);

impl Draw {
    pub fn bits(&mut self) -> u64 {
        self.0 = self.0.wrapping_add(0x9e37_79b9_7f4a_7c15);
        let mut mixed = self.0;
        mixed = (mixed ^ mixed >> 30).wrapping_mul(0xbf58_476d_1ce4_e5b9);
        mixed = (mixed ^ mixed >> 27).wrapping_mul(0x94d0_49bb_1331_11eb);
        mixed ^ mixed >> 31
    }

    pub fn from(&mut self, least: u64, most: u64) -> u64 {
        least + self.bits() % (most - least + 1)
    }

    pub fn once_in(&mut self, times: u64) -> bool {
        self.bits() % times == 0
    }

    pub fn one_of<T: Copy>(&mut self, values: &[T]) -> T {
        values[self.bits() as usize % values.len()]
    }

    pub fn byte(&mut self) -> u8 {
        self.bits() as u8
    }
}

fn draw_speed(draw: &mut Draw, kind: Kind) -> u64 {
    let (low, high) = (*kind.free_flow_speeds().start(), *kind.free_flow_speeds().end());
    match draw.from(0, 3) {
        0 => draw.one_of(&[low - 1, low, low + 1, high - 1, high, high + 1, 60_000, 65_000, 70_000, 75_400]),
        1 => draw.from(low, high),
        2 => draw.from(high, 90_000),
        _ => draw.from(low - 5_000, high + 5_000),
    }
}

fn draw_clearance(draw: &mut Draw) -> u64 {
    match draw.from(0, 3) {
        0 => draw.from(0, 400),
        1 => 10 * draw.from(0, 7) + draw.one_of(&[0, 9]),
        _ => draw.from(0, 65),
    }
}

// Factors at and beside their ends, and low capacity factors, with which the rounding of b shows.
fn draw_factor(draw: &mut Draw) -> u64 {
    match draw.from(0, 4) {
        0 => 1_000,
        1 => draw.one_of(&[500, 501, 503, 505, 506, 999]),
        2 => draw.from(500, 1_000),
        _ => draw.from(750, 1_000),
    }
}

// Clear on kind M, and on kind F two times in three.
fn draw_weather(draw: &mut Draw, kind: Kind) -> Weather {
    if kind == Kind::Multilane || !draw.once_in(3) {
        return Weather::CLEAR;
    }
    Weather { speed_factor: if draw.once_in(2) { draw.from(700, 1_000) } else { draw_factor(draw) }, capacity_factor: draw_factor(draw) }
}

fn draw_road(draw: &mut Draw) -> Case {
    let kind = draw.one_of(&[Kind::Freeway, Kind::Multilane]);
    let medians: &[Median] = match kind {
        Kind::Freeway => &[Median::Divided],
        Kind::Multilane => &[Median::Undivided, Median::Divided, Median::TurnLane],
    };
    Case {
        kind,
        way: draw.one_of(&[Way::Estimated, Way::Given]),
        speed: draw_speed(draw, kind),
        width: if draw.once_in(2) { draw.from(100, 200) } else { draw.one_of(&[100, 109, 110, 119, 120, 200]) },
        right: draw_clearance(draw),
        left: draw_clearance(draw),
        median: draw.one_of(medians),
        access: if draw.once_in(8) { draw.from(0, kind.greatest_access()) } else { draw.from(0, 42) },
        lanes: draw.from(*kind.lane_counts().start(), *kind.lane_counts().end()),
        demand: 0,
        factor: if draw.once_in(4) { draw.one_of(&[250, 251, 999, 1_000]) } else { draw.from(250, 1_000) },
        share: match draw.from(0, 3) {
            0 => draw.one_of(&[0, 1, 999, 1_000]),
            1 => draw.from(0, 1_000),
            _ => draw.from(0, 250),
        },
        terrain: draw.one_of(&[Terrain::Level, Terrain::Rolling]),
        weather: draw_weather(draw, kind),
    }
}

// FFS-10, REFUSAL-10: moves the speed so that F lies at or beside an end of the kind's speeds.
fn move_to_end(draw: &mut Draw, method: &Method, case: &mut Case) {
    let ends = case.kind.free_flow_speeds();
    let end = draw.one_of(&[*ends.start(), *ends.end()]);
    let taken_off = match case.way {
        Way::Given => 0,
        Way::Estimated => method.adjustments(case),
    };
    case.speed = end + taken_off + draw.from(0, 2) - 1;
}

// WEATHER-2, REFUSAL-10: moves the speed factor so that F after it lies at or beside 50,000, on kind F.
fn move_to_adjusted_end(draw: &mut Draw, method: &Method, case: &mut Case) {
    let clear = Case { weather: Weather::CLEAR, ..*case };
    if case.kind == Kind::Freeway && planner_refusal(&clear).is_none() {
        if let Ok(free_flow_speed) = method.free_flow_speed(&clear) {
            case.weather.speed_factor = 50_000_000_u64.div_ceil(free_flow_speed) + draw.from(0, 2) - 1;
        }
    }
}

// REFUSAL-1 to REFUSAL-6, REFUSAL-8, REFUSAL-9, REFUSAL-19: puts some fields at or past a limit that a refusal guards.
pub fn move_past_limits(draw: &mut Draw, case: &mut Case) {
    for _ in 0..draw.from(1, 3) {
        match draw.from(0, 10) {
            0 => case.speed = draw.one_of(&[0, 29_999, 30_000, 90_000, 90_001, 99_999]),
            1 => case.width = draw.one_of(&[0, 99, 100, 200, 201, 99_999]),
            2 => case.right = draw.one_of(&[400, 401, 99_999]),
            3 => case.left = draw.one_of(&[400, 401, 99_999]),
            4 => case.median = draw.one_of(&[Median::Undivided, Median::TurnLane]),
            5 => case.access = draw.one_of(&[48, 49, 200, 201, 99_999]),
            6 => case.lanes = draw.one_of(&[0, 1, 2, 3, 4, 8, 9, 99_999]),
            7 => case.factor = draw.one_of(&[0, 249, 250, 1_000, 1_001, 99_999]),
            8 => case.share = draw.one_of(&[1_000, 1_001, 99_999]),
            9 => case.weather.speed_factor = draw.one_of(&[0, 499, 500, 999, 1_000, 1_001, 99_999]),
            _ => case.weather.capacity_factor = draw.one_of(&[0, 499, 500, 999, 1_000, 1_001, 99_999]),
        }
    }
}

// LETTER-1, CURVE-2: a demand near a change of letter, the breakpoint or a limit, for a case that is accepted, on its curve.
pub fn draw_demand(draw: &mut Draw, method: &Method, case: &Case, curve: &Curve) -> u64 {
    let volumes = method.service_volumes(case, curve);
    let demand = match draw.from(0, 9) {
        0 => draw.one_of(&[0, 1, 2, 99_999, 100_000, GREATEST_DEMAND - 1, GREATEST_DEMAND]),
        1 => draw.from(0, GREATEST_DEMAND),
        2 => {
            let at_breakpoint = curve.breakpoint * case.factor * case.lanes / passenger_cars(case) / 100;
            at_breakpoint + draw.from(0, 2)
        }
        3..=5 => draw.one_of(&volumes) + draw.from(0, 2),
        _ => draw.from(0, volumes[4] + volumes[4] / 4 + 1),
    };
    demand.min(GREATEST_DEMAND)
}

// CASE-1, CASE-2: a case with each field near what tells in it.
pub fn draw_case(draw: &mut Draw, method: &Method) -> Case {
    let mut case = draw_road(draw);
    if draw.once_in(8) {
        move_to_end(draw, method, &mut case);
    }
    if draw.once_in(16) {
        move_to_adjusted_end(draw, method, &mut case);
    }
    if draw.once_in(8) {
        move_past_limits(draw, &mut case);
    }
    case.demand = match planner_refusal(&case) {
        None => match method.curve(&case) {
            Ok(curve) => draw_demand(draw, method, &case, &curve),
            Err(_) => draw.from(0, 10_000),
        },
        Some(_) => draw.from(0, GREATEST_DEMAND),
    };
    case
}

// CASE-4: a case that is accepted.
pub fn draw_accepted_case(draw: &mut Draw, method: &Method) -> Case {
    loop {
        let case = draw_case(draw, method);
        if method.answer(&case).is_ok() {
            return case;
        }
    }
}

// LINE-6, LINE-4: a case as a line, appended to what is there, 13 fields in clear weather, else 15.
pub fn append_line(line: &mut String, case: &Case) {
    let kind = match case.kind {
        Kind::Freeway => 'F',
        Kind::Multilane => 'M',
    };
    let way = match case.way {
        Way::Estimated => 'E',
        Way::Given => 'G',
    };
    let median = match case.median {
        Median::Undivided => 'U',
        Median::Divided => 'D',
        Median::TurnLane => 'T',
    };
    let terrain = match case.terrain {
        Terrain::Level => 'L',
        Terrain::Rolling => 'R',
    };
    let Case { speed, width, right, left, access, lanes, demand, factor, share, .. } = case;
    let written = write!(
        line,
        "{kind}\t{way}\t{speed}\t{width}\t{right}\t{left}\t{median}\t{access}\t{lanes}\t{demand}\t{factor}\t{share}\t{terrain}"
    );
    written.expect("a string can be written to");
    if case.weather != Weather::CLEAR {
        let Weather { speed_factor, capacity_factor } = case.weather;
        write!(line, "\t{speed_factor}\t{capacity_factor}").expect("a string can be written to");
    }
}

pub fn line_of(case: &Case) -> Vec<u8> {
    let mut line = String::new();
    append_line(&mut line, case);
    line.into_bytes()
}

// LINE-2: numbers at and past the most digits of a field, with a leading zero too.
const LONG_NUMBERS: [&str; 6] = ["99999", "099999", "100000", "999999", "0999999", "1000000"];

fn draw_long_number(draw: &mut Draw) -> String {
    match draw.from(0, 2) {
        0 => draw.one_of(&LONG_NUMBERS).to_string(),
        1 => draw.from(100_000, 999_999).to_string(),
        _ => draw.from(1_000_000, 9_999_999).to_string(),
    }
}

const TELLING_BYTES: &[u8] = b"0123456789\t\tFMEGUDTLR fr-+.,\r\n\0\xff\x80";

fn any_byte(draw: &mut Draw) -> u8 {
    if draw.once_in(4) {
        draw.byte()
    } else {
        draw.one_of(TELLING_BYTES)
    }
}

// The start and end of a field.
fn any_field(draw: &mut Draw, line: &[u8]) -> (usize, usize) {
    let at = draw.from(0, line.len() as u64) as usize;
    let start = line[..at].iter().rposition(|&byte| byte == b'\t').map_or(0, |tab| tab + 1);
    let end = line[at..].iter().position(|&byte| byte == b'\t').map_or(line.len(), |tab| at + tab);
    (start, end)
}

// REFUSAL-15, LINE-1 to LINE-5: damages a line: a byte changed, cut, doubled or inserted; a field emptied, doubled, led by a zero, replaced, by six
// and more digits too; an end cut off; made longer.
pub fn damage(draw: &mut Draw, line: &mut Vec<u8>) {
    if line.is_empty() {
        line.push(any_byte(draw));
        return;
    }
    let at = draw.from(0, line.len() as u64 - 1) as usize;
    let (start, end) = any_field(draw, line);
    match draw.from(0, 14) {
        0 | 1 => line[at] = any_byte(draw),
        2 => {
            line.remove(at);
        }
        3 => line.insert(at, line[at]),
        4 => line.insert(at, any_byte(draw)),
        5 => {
            line.drain(start..end);
        }
        6 => {
            let field = line[start..end].to_vec();
            let tab: &[u8] = if draw.once_in(2) { b"\t" } else { b"" };
            line.splice(end..end, [tab, &field[..]].concat());
        }
        7 => line.insert(start, b'0'),
        8 => {
            let value = draw.one_of(&["0", "00", "4294967296", "18446744073709551617", "-1", "+1", "1e3", "D", "L"]);
            line.splice(start..end, value.bytes());
        }
        13 => {
            line.splice(start..end, draw_long_number(draw).bytes());
        }
        9 => line.truncate(at),
        10 => {
            line.drain(..at);
        }
        11 => line.push(any_byte(draw)),
        12 => {
            let length = draw.one_of(&[79, 80, 81, 82, 100, 128, 256, 300]);
            let filling = draw.one_of(b"\t0 L");
            line.resize(line.len().max(length), filling);
        }
        _ => line.extend_from_within(..),
    }
}

// The line of a random case.
pub fn draw_line(draw: &mut Draw, method: &Method) -> Vec<u8> {
    let case = draw_case(draw, method);
    draw_line_of(draw, &case)
}

// The line of a case, clear weather written out one time in four, one in four damaged once to three times.
pub fn draw_line_of(draw: &mut Draw, case: &Case) -> Vec<u8> {
    let mut line = line_of(case);
    if case.weather == Weather::CLEAR && draw.once_in(4) {
        line.extend_from_slice(b"\t1000\t1000");
    }
    if draw.once_in(4) {
        for _ in 0..draw.from(1, 3) {
            damage(draw, &mut line);
        }
    }
    line
}

// The case of a line, with its curve, if it is accepted.
pub fn accepted(method: &Method, line: &[u8]) -> Option<(Case, Curve)> {
    let case = lines::parse(line).filter(|case| planner_refusal(case).is_none())?;
    Some((case, method.curve(&case).ok()?))
}
