// Laws of the method, sampled through the engine's own answers, over lines and lent buffers (SHAPE-4).
//   - SHAPE-1: more demand, a greater heavy share, rolling instead of level terrain, a lower peak-hour factor or fewer lanes never get a better
//     letter, under one weather; fewer lanes in clear weather or on a given speed.
//   - SHAPE-2: a demand is at most the service volume of a letter exactly when it gets the letter or a better one.
//   - SHAPE-3: the lanes question answers the least count with which the engine's own answer is the letter or a better one.
//   - LINE-7: a line whose demand has at most five digits is read and answered as by the older reader. Any other is malformed to it, and to this
//     one too unless it has six digits there.

use super::draw::{draw_accepted_case, draw_line, line_of, Draw, DEMAND_FIELD};
use super::engine;
use super::tally::Tally;
use crate::second::lines;
use crate::second::method::{Case, Method, Terrain, Way, Weather, GREATEST_DEMAND};

// Letter and service volumes as the engine answers them, or its refusal. A is 1.
pub struct Answer {
    pub letter: u32,
    volumes: Vec<u64>,
}

pub fn ask(case: &Case) -> Result<Answer, String> {
    let text = engine::answer_text(&line_of(case));
    let fields: Vec<&str> = text.split('\t').collect();
    let letter = "ABCDEF".find(fields[0]).filter(|_| fields.len() == 11).ok_or_else(|| text.clone())?;
    Ok(Answer { letter: letter as u32 + 1, volumes: fields[6..].iter().map(|field| field.parse().unwrap_or(u64::MAX)).collect() })
}

fn between(draw: &mut Draw, least: u64, most: u64) -> u64 {
    if draw.once_in(2) {
        draw.from(least, most)
    } else {
        (least + draw.from(0, 2)).min(most)
    }
}

// CASE-3: a case of the same road with no less load: each of the five is kept or made harder.
fn harder(draw: &mut Draw, case: &Case) -> Case {
    let mut harder = *case;
    let which = draw.from(1, 31);
    if which & 1 > 0 {
        harder.demand = between(draw, case.demand, GREATEST_DEMAND);
    }
    if which & 2 > 0 {
        harder.share = between(draw, case.share, 1_000);
    }
    if which & 4 > 0 {
        harder.terrain = Terrain::Rolling;
    }
    if which & 8 > 0 {
        let least = if draw.once_in(2) { 250 } else { case.factor.saturating_sub(2).max(250) };
        harder.factor = draw.from(least, case.factor);
    }
    if which & 16 > 0 && (case.weather == Weather::CLEAR || case.way == Way::Given) {
        harder.lanes = draw.from(2, case.lanes);
    }
    harder
}

// SHAPE-1.
fn no_better_under_more_load(draw: &mut Draw, tally: &mut Tally, case: &Case, answer: &Answer) -> u64 {
    let harder = harder(draw, case);
    // With fewer lanes F may fall below its lower end.
    let Ok(under_more) = ask(&harder) else { return 0 };
    tally.check(under_more.letter >= answer.letter, || format!("a better letter under more load: {case:?}, {harder:?}"));
    1
}

// SHAPE-2, VOLUME-1, VOLUME-2.
fn volumes_are_what_demands_meet(draw: &mut Draw, tally: &mut Tally, case: &Case, answer: &Answer) {
    let centre = draw.one_of(&answer.volumes);
    let demand = match draw.from(0, 3) {
        0 => centre,
        1 => (centre + 1).min(GREATEST_DEMAND),
        2 => draw.from(0, (centre + 1_000).min(GREATEST_DEMAND)),
        _ => draw.from(0, GREATEST_DEMAND),
    };
    let tried = Case { demand, ..*case };
    let got = ask(&tried).map(|answer| answer.letter);
    for (letter, &volume) in (1..=5).zip(&answer.volumes) {
        let meets = got.as_ref().is_ok_and(|&got| got <= letter);
        tally.check(meets == (demand <= volume), || format!("service volume {volume} of letter {letter}, {tried:?} gets {got:?}"));
    }
}

// SHAPE-3.
fn lanes_are_the_least(draw: &mut Draw, tally: &mut Tally, case: &Case) {
    let letter = draw.from(1, 5) as u32;
    let meets = |lanes: &u64| ask(&Case { lanes: *lanes, ..*case }).is_ok_and(|answer| answer.letter <= letter);
    let least = case.kind.lane_counts().find(meets).map_or("X\t14".to_string(), |lanes| lanes.to_string());
    tally.equal(engine::lanes_text(&line_of(case), letter), least, || format!("lanes for letter {letter}, {case:?}"));
}

// LINE-7: the greatest demand of the older reader.
const OLDER_GREATEST_DEMAND: u64 = 99_999;

// A demand's field, or nothing.
fn demand_field(line: &[u8]) -> &[u8] {
    line.split(|&byte| byte == b'\t').nth(DEMAND_FIELD).unwrap_or(b"")
}

// LINE-7: hands back 1 where a six-digit demand, which the older reader refused, is well formed now.
fn read_as_before(method: &Method, draw: &mut Draw, tally: &mut Tally, line: &[u8]) -> u64 {
    let letter = draw.from(1, 5) as u32;
    let (answer, lanes) = (engine::answer_text(line), engine::lanes_text(line, letter));
    let [older_answer, older_lanes] = [lines::los_line_as_before(method, line), lines::lanes_line_as_before(method, line, letter)]
        .map(|text| text.trim_end_matches('\n').to_string());
    let name = || String::from_utf8_lossy(line).into_owned();
    let length = demand_field(line).len();
    if length <= 5 {
        tally.equal(answer, older_answer, || format!("answer as before, {:?}", name()));
        tally.equal(lanes, older_lanes, || format!("lanes for letter {letter} as before, {:?}", name()));
        return 0;
    }
    tally.equal([&older_answer[..], &older_lanes], ["X\t15"; 2], || format!("older reader, {:?}", name()));
    let malformed = answer == "X\t15";
    tally.equal(malformed, lanes == "X\t15", || format!("answer and lanes for letter {letter}, {:?}", name()));
    tally.check(malformed || length == 6, || format!("a demand of more than six digits is read, {:?}", name()));
    u64::from(!malformed)
}

// VOLUME-2, ANSWER-2: service volumes range up to 999,999, and none of them is above the greatest demand of the older reader.
fn volumes_as_before(tally: &mut Tally, case: &Case, answer: &Answer) {
    let before = answer.volumes.iter().all(|&volume| volume <= OLDER_GREATEST_DEMAND);
    tally.check(before, || format!("a service volume above {OLDER_GREATEST_DEMAND}, {case:?}"));
}

pub fn sample(method: &Method, draw: &mut Draw, tally: &mut Tally, count: u64) {
    let (mut compared, mut six_digits) = (0, 0);
    for _ in 0..count {
        let case = draw_accepted_case(draw, method);
        match ask(&case) {
            Ok(answer) => {
                compared += no_better_under_more_load(draw, tally, &case, &answer);
                volumes_are_what_demands_meet(draw, tally, &case, &answer);
                lanes_are_the_least(draw, tally, &case);
                volumes_as_before(tally, &case, &answer);
            }
            Err(text) => tally.check(false, || format!("engine refuses an accepted case: {case:?}, {text:?}")),
        }
        let line = draw_line(draw, method);
        six_digits += read_as_before(method, draw, tally, &line);
    }
    tally.check(compared > count / 2, || format!("only {compared} pairs of loads were accepted"));
    tally.check(six_digits > count / 10, || format!("only {six_digits} lines had six digits of demand"));
}
