// Cases and answers as text: what the two calls over a line hand back and write, and what the program los prints.

use super::method::{Case, Kind, Median, Method, Refusal, Terrain, Way, Weather, LETTER_E};

// LINE-5, TEXT-4.
const LONGEST_LINE: usize = 80;
const LEAST_BUFFER: usize = 64;

pub const MALFORMED: Refusal = 15;
const LETTER_UNKNOWN: Refusal = 16;
pub const BUFFER_TOO_SHORT: Refusal = 17;

// LINE-2, LINE-7: how many digits a number has at most, a demand, one that an older reader takes, and every other number.
const DEMAND_DIGITS: usize = 6;
const OLDER_DEMAND_DIGITS: usize = 5;
const DIGITS: usize = 5;

// LINE-2: some digits; 0 begins a number only as its one digit.
fn number_of(field: &[u8], most_digits: usize) -> Option<u64> {
    let well_formed = match field {
        [b'0'] => true,
        [b'1'..=b'9', others @ ..] => field.len() <= most_digits && others.iter().all(u8::is_ascii_digit),
        _ => false,
    };
    well_formed.then(|| field.iter().fold(0, |value, digit| 10 * value + u64::from(digit - b'0')))
}

fn number(field: &[u8]) -> Option<u64> {
    number_of(field, DIGITS)
}

// LINE-3: the meaning of a field of one letter.
fn choice<T: Copy>(field: &[u8], meanings: &[(u8, T)]) -> Option<T> {
    let [letter] = field else { return None };
    meanings.iter().find(|(known, _)| known == letter).map(|(_, meaning)| *meaning)
}

// LINE-4: the fields after the terrain.
fn weather(fields: &[&[u8]]) -> Option<Weather> {
    match fields {
        [] => Some(Weather::CLEAR),
        [speed_factor, capacity_factor] => Some(Weather { speed_factor: number(speed_factor)?, capacity_factor: number(capacity_factor)? }),
        _ => None,
    }
}

// LINE-1, LINE-6, REFUSAL-15.
fn parse_with(line: &[u8], demand_digits: usize) -> Option<Case> {
    if line.len() > LONGEST_LINE {
        return None;
    }
    let fields: Vec<&[u8]> = line.split(|&byte| byte == b'\t').collect();
    let [kind, way, speed, width, right, left, median, access, lanes, demand, factor, share, terrain, ref others @ ..] = fields[..] else {
        return None;
    };
    Some(Case {
        kind: choice(kind, &[(b'F', Kind::Freeway), (b'M', Kind::Multilane)])?,
        way: choice(way, &[(b'E', Way::Estimated), (b'G', Way::Given)])?,
        speed: number(speed)?,
        width: number(width)?,
        right: number(right)?,
        left: number(left)?,
        median: choice(median, &[(b'U', Median::Undivided), (b'D', Median::Divided), (b'T', Median::TurnLane)])?,
        access: number(access)?,
        lanes: number(lanes)?,
        demand: number_of(demand, demand_digits)?,
        factor: number(factor)?,
        share: number(share)?,
        terrain: choice(terrain, &[(b'L', Terrain::Level), (b'R', Terrain::Rolling)])?,
        weather: weather(others)?,
    })
}

pub fn parse(line: &[u8]) -> Option<Case> {
    parse_with(line, DEMAND_DIGITS)
}

// LINE-7: a six-digit demand is malformed to it.
pub fn parse_as_older_reader(line: &[u8]) -> Option<Case> {
    parse_with(line, OLDER_DEMAND_DIGITS)
}

pub fn letter_name(letter: u32) -> char {
    [' ', 'A', 'B', 'C', 'D', 'E', 'F'][letter as usize]
}

// TEXT-1, TEXT-2: what is answered to what a reader made of a line.
fn answer_text(method: &Method, case: Option<Case>) -> Result<String, Refusal> {
    let answer = method.answer(&case.ok_or(MALFORMED)?)?;
    let [a, b, c, d, e] = answer.service_volumes;
    Ok(format!(
        "{}\t{}\t{}\t{}\t{}\t{}\t{a}\t{b}\t{c}\t{d}\t{e}\n",
        letter_name(answer.letter),
        answer.free_flow_speed,
        answer.capacity,
        answer.flow_rate,
        answer.speed,
        answer.density,
    ))
}

// LANES-3, REFUSAL-16: the letter is asked after the line.
fn lanes_text(method: &Method, case: Option<Case>, letter: u32) -> Result<String, Refusal> {
    let case = case.ok_or(MALFORMED)?;
    if !(1..=LETTER_E).contains(&letter) {
        return Err(LETTER_UNKNOWN);
    }
    method.lanes(&case, letter).map(|lanes| format!("{lanes}\n"))
}

// CALL-3, CALL-5, TEXT-5: writes a text and hands back its length, or hands back minus the refusal and writes nothing.
fn written(text: Result<String, Refusal>, buffer: &mut [u8]) -> i32 {
    match text {
        Ok(text) => {
            buffer[..text.len()].copy_from_slice(text.as_bytes());
            text.len() as i32
        }
        Err(number) => -number,
    }
}

// CALL-1, CALL-4, REFUSAL-17.
pub fn answer(method: &Method, line: &[u8], buffer: &mut [u8]) -> i32 {
    if buffer.len() < LEAST_BUFFER {
        return -BUFFER_TOO_SHORT;
    }
    written(answer_text(method, parse(line)), buffer)
}

// CALL-2, CALL-4, REFUSAL-17.
pub fn lanes(method: &Method, line: &[u8], letter: u32, buffer: &mut [u8]) -> i32 {
    if buffer.len() < LEAST_BUFFER {
        return -BUFFER_TOO_SHORT;
    }
    written(lanes_text(method, parse(line), letter), buffer)
}

// LOS-1: the lines of an input; bytes behind the last newline are one, an empty input has none.
pub fn input_lines(input: &[u8]) -> Vec<&[u8]> {
    let mut lines: Vec<&[u8]> = input.split(|&byte| byte == b'\n').collect();
    if lines.last().is_some_and(|rest| rest.is_empty()) {
        lines.pop();
    }
    lines
}

// TEXT-3.
fn printed(text: Result<String, Refusal>) -> String {
    text.unwrap_or_else(|number| format!("X\t{number}\n"))
}

// LOS-2: what los prints for a line.
pub fn los_line(method: &Method, line: &[u8]) -> String {
    printed(answer_text(method, parse(line)))
}

// LINE-7: with the older reader, what los prints for a line, and the lanes question in the same form.
pub fn los_line_as_before(method: &Method, line: &[u8]) -> String {
    printed(answer_text(method, parse_as_older_reader(line)))
}

pub fn lanes_line_as_before(method: &Method, line: &[u8], letter: u32) -> String {
    printed(lanes_text(method, parse_as_older_reader(line), letter))
}
