// Traps: readings of a rule that are near at hand and wrong. Each is written out as a formula, with an input at which it answers something else:
// both implementations must give the right answer there, and the trap its wrong one.

use super::engine;
use super::tally::Tally;
use crate::second::lines;
use crate::second::method::{
    density, flow_rate, millionths, passenger_cars, planner_refusal, speed_at_weight, Case, Curve, Kind, Method, Weather, LETTER_F,
};

struct Trap {
    name: &'static str,
    // The letter of a lanes question, or 0 to ask for the answer.
    letter: u32,
    line: &'static str,
    right: &'static str,
    wrong: &'static str,
    formula: fn(&Method, &Case) -> String,
}

const TRAPS: &[Trap] = &[
    // FLOW-2.
    Trap {
        name: "the flow divided by the heavy factor",
        letter: 0,
        line: "F E 75400 110 20 0 D 24 2 2000 920 50 R",
        right: "C 60782 230782 1196 60782 197",
        wrong: "B 60782 230782 989 60782 163",
        formula: divided_by_share,
    },
    // LETTER-1, CURVE-6.
    Trap {
        name: "the density by the speed as it is shown",
        letter: 0,
        line: "F G 59000 120 60 60 D 0 2 3970 1000 0 L",
        right: "D 59000 229000 1985 56714 350",
        wrong: "E 59000 229000 1985 56714 351",
        formula: letter_from_shown_speed,
    },
    // UNIT-2, FFS-1.
    Trap {
        name: "rounding F to 5 mi/h",
        letter: 0,
        line: "F G 62400 120 60 60 D 0 2 2246 1000 0 L",
        right: "B 62400 232400 1123 62400 180",
        wrong: "C 60000 230000 1123 60000 188",
        formula: rounded_to_five,
    },
    // LANES-1, CASE-3.
    Trap {
        name: "every lane count with the F of the case",
        letter: 1,
        line: "F E 70000 120 0 0 D 0 2 3000 1000 0 L",
        right: "4",
        wrong: "5",
        formula: kept_free_flow_speed,
    },
    // CURVE-2.
    Trap {
        name: "the freeway breakpoint on kind M",
        letter: 0,
        line: "M G 60000 120 60 60 D 0 2 3066 1000 0 L",
        right: "D 60000 220000 1533 58934 261",
        wrong: "C 60000 220000 1533 60000 256",
        formula: freeway_breakpoint,
    },
    // FFS-4, FFS-9.
    Trap {
        name: "right clearance cut down to whole feet",
        letter: 0,
        line: "F E 70000 120 59 60 D 0 2 0 1000 0 L",
        right: "A 69940 239940 0 69940 0",
        wrong: "A 69400 239400 0 69400 0",
        formula: cut_to_whole_feet,
    },
    // FFS-5, FFS-9.
    Trap {
        name: "the first entry's slope over the whole row",
        letter: 0,
        line: "M E 60000 120 0 0 D 0 2 1000 1000 0 L",
        right: "A 54600 209200 500 54600 92",
        wrong: "A 57600 215200 500 57600 87",
        formula: first_slope,
    },
    // FFS-5.
    Trap {
        name: "each side of the total clearance interpolated alone",
        letter: 0,
        line: "M E 60000 120 38 45 D 0 2 1000 1000 0 L",
        right: "A 59175 218350 500 59175 85",
        wrong: "A 59250 218500 500 59250 85",
        formula: sides_alone,
    },
    // WEATHER-3.
    Trap {
        name: "b rounded down after each factor",
        letter: 0,
        line: "F G 67855 120 60 60 D 0 2 3534 1000 0 L 1000 942",
        right: "D 67855 224059 1767 62000 285",
        wrong: "D 67855 224059 1767 61999 286",
        formula: breakpoint_rounded_twice,
    },
    // WEATHER-3.
    Trap {
        name: "b from the F before the factor",
        letter: 0,
        line: "F G 60000 120 60 60 D 0 2 3800 1000 0 L 950 1000",
        right: "D 57000 227000 1900 56297 338",
        wrong: "D 57000 227000 1900 55685 342",
        formula: breakpoint_before_factor,
    },
    // WEATHER-3.
    Trap {
        name: "c from the F before the factor",
        letter: 0,
        line: "F E 75400 110 20 0 D 24 2 2000 920 50 R 860 780",
        right: "C 52272 173372 1196 52222 230",
        wrong: "C 52272 180009 1196 52236 229",
        formula: capacity_before_factor,
    },
    // WEATHER-2, FFS-10.
    Trap {
        name: "the factor before the upper end",
        letter: 0,
        line: "F G 90000 120 60 60 D 0 2 3000 1000 0 L 900 1000",
        right: "C 67500 237500 1500 66990 224",
        wrong: "C 75000 240000 1500 72236 208",
        formula: factor_before_upper_end,
    },
    // ORDER-2, REFUSAL-19.
    Trap {
        name: "19 after 10",
        letter: 0,
        line: "M G 30000 120 60 60 D 0 2 3000 1000 0 L 1000 999",
        right: "X 19",
        wrong: "X 10",
        formula: weather_after_speed,
    },
    // FFS-8.
    Trap {
        name: "the ramp term rounded down",
        letter: 0,
        line: "F E 75400 110 20 0 D 24 2 2000 920 50 R",
        right: "C 60782 230782 1196 60782 197",
        wrong: "C 60783 230783 1196 60783 197",
        formula: ramp_term_rounded_down,
    },
    // FFS-8.
    Trap {
        name: "the ramp term rounded up",
        letter: 0,
        line: "F E 70000 120 60 60 D 10 2 2000 1000 0 L",
        right: "B 65055 235055 1000 65055 154",
        wrong: "B 65054 235054 1000 65054 154",
        formula: ramp_term_rounded_up,
    },
    // LINE-2, CASE-2.
    Trap {
        name: "a demand above 99,999 taken as 99,999",
        letter: 0,
        line: "F E 75400 110 20 0 D 24 2 999999 920 50 R",
        right: "F 60782 230782 597826 0 0",
        wrong: "F 60782 230782 59783 0 0",
        formula: demand_at_most_99999,
    },
    // LINE-2.
    Trap {
        name: "a demand's sixth digit left out",
        letter: 0,
        line: "F G 75000 120 60 60 D 0 8 100000 1000 0 L",
        right: "F 75000 240000 12500 0 0",
        wrong: "B 75000 240000 1250 74309 169",
        formula: sixth_digit_left_out,
    },
];

// The first six fields of an answer, with blanks.
fn fields(curve: &Curve, letter: u32, flow_rate: u64, speed: u64, density: u64) -> String {
    let Curve { free_flow_speed, capacity, .. } = curve;
    format!("{} {free_flow_speed} {capacity} {flow_rate} {speed} {density}", lines::letter_name(letter))
}

fn letter_of(density: u64) -> u32 {
    [110, 180, 260, 350, 450].iter().position(|&limit| density <= limit).map_or(LETTER_F, |place| place as u32 + 1)
}

fn free_flow_speed(method: &Method, case: &Case) -> u64 {
    method.free_flow_speed(case).expect("10 does not refuse the case")
}

fn curve(method: &Method, case: &Case) -> Curve {
    method.curve(case).expect("10 does not refuse the case")
}

fn divided_by_share(method: &Method, case: &Case) -> String {
    let wrong = (case.demand * 1_000 * 1_000).div_ceil(case.factor * case.lanes * passenger_cars(case));
    let curve = curve(method, case);
    let service = method.service(&curve, wrong);
    fields(&curve, service.letter, wrong, service.speed, service.density)
}

fn letter_from_shown_speed(method: &Method, case: &Case) -> String {
    let (curve, flow) = (curve(method, case), flow_rate(case));
    let shown = method.service(&curve, flow).speed;
    let wrong = (10_000 * flow).div_ceil(shown);
    fields(&curve, letter_of(wrong), flow, shown, wrong)
}

fn rounded_to_five(method: &Method, case: &Case) -> String {
    with_speed(method, case, (free_flow_speed(method, case) + 2_500) / 5_000 * 5_000)
}

fn kept_free_flow_speed(method: &Method, case: &Case) -> String {
    let wrong = curve(method, case);
    let meets = |&lanes: &u64| method.letter(&wrong, flow_rate(&Case { lanes, ..*case })) <= 1;
    case.kind.lane_counts().find(meets).map_or("X 14".to_string(), |lanes| lanes.to_string())
}

fn freeway_breakpoint(method: &Method, case: &Case) -> String {
    let (curve, flow) = (curve(method, case), flow_rate(case));
    let (wrong, c) = (Kind::Freeway.breakpoint(curve.free_flow_speed), curve.capacity);
    let i = (1_000 * (100 * flow).saturating_sub(wrong)).div_ceil(c - wrong);
    let exact = speed_at_weight(&curve, millionths(method.power(i)));
    let density = density(exact, flow).rounded_up();
    fields(&curve, letter_of(density), flow, exact.rounded_down(), density)
}

// The answer on a wrong curve.
fn on_curve(method: &Method, case: &Case, wrong: Curve) -> String {
    let service = method.service(&wrong, flow_rate(case));
    fields(&wrong, service.letter, flow_rate(case), service.speed, service.density)
}

// The answer with a wrong F, in clear weather.
fn with_speed(method: &Method, case: &Case, wrong: u64) -> String {
    on_curve(method, case, Curve::clear(case.kind, wrong))
}

fn cut_to_whole_feet(method: &Method, case: &Case) -> String {
    with_speed(method, case, free_flow_speed(method, &Case { right: case.right / 10 * 10, ..*case }))
}

fn first_slope(method: &Method, case: &Case) -> String {
    let (none_missing, one_missing) = (Case { right: 60, left: 60, ..*case }, Case { right: 60, left: 59, ..*case });
    let per_tenth = free_flow_speed(method, &none_missing) - free_flow_speed(method, &one_missing);
    with_speed(method, case, free_flow_speed(method, &none_missing) - (120 - case.right - case.left) * per_tenth)
}

fn sides_alone(method: &Method, case: &Case) -> String {
    let [none, right, left] =
        [(60, 60), (case.right, 60), (60, case.left)].map(|(right, left)| free_flow_speed(method, &Case { right, left, ..*case }));
    with_speed(method, case, none - (none - right) - (none - left))
}

// F before its factor.
fn unadjusted_speed(method: &Method, case: &Case) -> u64 {
    free_flow_speed(method, &Case { weather: Weather::CLEAR, ..*case })
}

fn breakpoint_rounded_twice(method: &Method, case: &Case) -> String {
    let curve = curve(method, case);
    let once = case.kind.breakpoint(curve.free_flow_speed) * case.weather.capacity_factor / 1_000;
    on_curve(method, case, Curve { breakpoint: once * case.weather.capacity_factor / 1_000, ..curve })
}

fn breakpoint_before_factor(method: &Method, case: &Case) -> String {
    let wrong = case.kind.breakpoint(unadjusted_speed(method, case)) * case.weather.capacity_factor.pow(2) / 1_000_000;
    on_curve(method, case, Curve { breakpoint: wrong, ..curve(method, case) })
}

fn capacity_before_factor(method: &Method, case: &Case) -> String {
    let wrong = case.kind.capacity(unadjusted_speed(method, case)) * case.weather.capacity_factor / 1_000;
    on_curve(method, case, Curve { capacity: wrong, ..curve(method, case) })
}

fn factor_before_upper_end(method: &Method, case: &Case) -> String {
    with_speed(method, case, (case.speed * case.weather.speed_factor / 1_000).min(*case.kind.free_flow_speeds().end()))
}

// 10 asked first.
fn weather_after_speed(method: &Method, case: &Case) -> String {
    let number = method.curve(case).err().or(planner_refusal(case)).expect("the case is refused");
    format!("X {number}")
}

// The ramp term before it is rounded, as floats have it: for counts where it is not near a whole number. 10,317.78 for 24, 4,945.48 for 10.
fn unrounded_ramp_term(case: &Case) -> f64 {
    3_220.0 * (case.access as f64 / 6.0).powf(0.84)
}

// The answer with a wrong ramp term, where F without it is not above the upper end.
fn with_ramp_term(method: &Method, case: &Case, wrong: f64) -> String {
    with_speed(method, case, free_flow_speed(method, &Case { access: 0, ..*case }) - wrong as u64)
}

fn ramp_term_rounded_down(method: &Method, case: &Case) -> String {
    with_ramp_term(method, case, unrounded_ramp_term(case).floor())
}

fn ramp_term_rounded_up(method: &Method, case: &Case) -> String {
    with_ramp_term(method, case, unrounded_ramp_term(case).ceil())
}

// The answer with a wrong demand.
fn with_demand(method: &Method, case: &Case, wrong: u64) -> String {
    let case = Case { demand: wrong, ..*case };
    on_curve(method, &case, curve(method, &case))
}

fn demand_at_most_99999(method: &Method, case: &Case) -> String {
    with_demand(method, case, case.demand.min(99_999))
}

fn sixth_digit_left_out(method: &Method, case: &Case) -> String {
    with_demand(method, case, case.demand / 10)
}

// Blanks for tabs, and no more fields than there are wanted.
fn cut(text: &str, like: &str) -> String {
    let count = like.split(' ').count();
    text.trim_end_matches('\n').split('\t').take(count).collect::<Vec<_>>().join(" ")
}

pub fn traps(method: &Method, tally: &mut Tally) {
    for trap in TRAPS {
        let line = trap.line.replace(' ', "\t").into_bytes();
        let case = lines::parse(&line).expect("the line is well-formed");
        let (theirs, ours) = if trap.letter == 0 {
            (engine::answer_text(&line), lines::los_line(method, &line))
        } else {
            let lanes = method.lanes(&case, trap.letter).map_or_else(|number| format!("X\t{number}"), |lanes| lanes.to_string());
            (engine::lanes_text(&line, trap.letter), lanes)
        };
        let wrong = (trap.formula)(method, &case);
        tally.equal(cut(&theirs, trap.right), trap.right.to_string(), || format!("engine, {}", trap.name));
        tally.equal(cut(&ours, trap.right), trap.right.to_string(), || format!("second, {}", trap.name));
        tally.equal(wrong.clone(), trap.wrong.to_string(), || format!("trap, {}", trap.name));
        tally.check(wrong != trap.right, || format!("{}: the trap gives the right answer", trap.name));
    }
}
