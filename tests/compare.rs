// Compares the engine, linked as an archive, with the second implementation of the rules of docs/METHOD.md (tests/second). How many demands it
// must try (TRIES-3) is had from that one's service volumes (tests/compare/tries.rs).
//
//   compare quick         figures worked out by hand, the traps, the manual's examples, curves by a stride, random cases, floats, the laws,
//                         whole days, how many demands are tried, how far multilane speeds are below the manual's curve, daily volumes,
//                         those of E that are published, forecasts, the vectors
//   compare full-curves   every free-flow speed with every flow rate up to capacity and one more
//   compare full-floats   every float in both units
//   compare full-distances  every multilane speed past the breakpoint beside the manual's curve, by whole powers
//   compare full-weather  every freeway curve under a capacity factor beside that of the next free-flow speed: where the speed falls
//   compare los PATH      random lines through the program los
//   compare write-vectors writes the vectors anew, as the second implementation answers them, at the project's root
//
// Prints the checks of each group and up to 20 differences; ends with 1 if there is any. The same seed gives the same run.

mod compare {
    pub mod curves;
    pub mod dailies;
    pub mod days;
    pub mod distances;
    pub mod draw;
    pub mod engine;
    pub mod falls;
    pub mod floats;
    pub mod forecasts;
    pub mod laws;
    pub mod lent;
    pub mod los;
    pub mod printed;
    pub mod random;
    pub mod tally;
    pub mod traps;
    pub mod tries;
    pub mod vectors;
    pub mod worked;
}
mod second;

use compare::dailies::Dailies;
use compare::days::Days;
use compare::distances::Distances;
use compare::draw::Draw;
use compare::forecasts::Forecasts;
use compare::random::Random;
use compare::tally::{Outcomes, Tally};
use compare::tries::Tries;
use compare::worked::Worked;
use compare::{curves, distances, falls, floats, laws, los, printed, traps, vectors};
use second::method::{Kind, Method};
use second::survey::Unit;
use std::process::exit;
use std::time::Instant;

const SEED: u64 = 20_260_101;
const RANDOM_CASES: u64 = 1_000_000;
const EVERY_DEMAND_CASES: u64 = 500;
const LAW_CASES: u64 = 50_000;
const RANDOM_DAYS: u64 = 100_000;
const COUNTED_LINES: u64 = 200_000;
const CURVE_POINTS: u64 = 10_000;
const CURVE_CASES: u64 = 40_000;
const RANDOM_DAILIES: u64 = 100_000;
const COUNTED_DAILIES: u64 = 100;
const RANDOM_FORECASTS: u64 = 100_000;
const LARGER_FORECASTS: u64 = 200;

// Runs a group and prints its count of checks and differences.
fn group(total: &mut Tally, name: &str, run: impl FnOnce() -> Tally) {
    let begun = Instant::now();
    let tally = run();
    println!("{name}: {} checks, {} differences, {:.1} s", tally.checks, tally.differences, begun.elapsed().as_secs_f64());
    total.add(tally);
}

// The tally of a group that fills one it is lent.
fn filled(fill: impl FnOnce(&mut Tally)) -> Tally {
    let mut tally = Tally::default();
    fill(&mut tally);
    tally
}

fn random_cases(method: &Method) -> Tally {
    let mut random = Random { method, draw: Draw(SEED), tally: Tally::default(), outcomes: Outcomes::default() };
    random.cases(RANDOM_CASES);
    random.coverage();
    random.outcomes.print();
    random.tally
}

fn every_demand(method: &Method) -> Tally {
    let mut random = Random { method, draw: Draw(SEED + 1), tally: Tally::default(), outcomes: Outcomes::default() };
    random.every_demand(EVERY_DEMAND_CASES);
    random.tally
}

fn whole_days(method: &Method) -> Tally {
    let mut days = Days { method, draw: Draw(SEED + 5), tally: Tally::default(), outcomes: Outcomes::default() };
    days.figures();
    days.random(RANDOM_DAYS);
    days.coverage();
    days.outcomes.print();
    days.tally
}

fn tries(method: &Method) -> Tally {
    let mut tries = Tries { method, tally: Tally::default(), most: 0, most_for: String::new(), counted: 0 };
    tries.figures();
    tries.vectors();
    tries.wide_freeways();
    tries.random(&mut Draw(SEED + 6), COUNTED_LINES);
    tries.print();
    tries.tally
}

fn distances(method: &Method) -> Tally {
    let mut distances = Distances::new(method);
    distances.figures();
    distances.random_points(&mut Draw(SEED + 7), CURVE_POINTS);
    distances.random_cases(&mut Draw(SEED + 8), CURVE_CASES);
    distances.worst_points();
    distances.print();
    distances.tally
}

fn daily_volumes(method: &Method) -> Tally {
    let mut dailies = Dailies { method, draw: Draw(SEED + 9), tally: Tally::default(), outcomes: Outcomes::default() };
    dailies.figures();
    dailies.random(RANDOM_DAILIES);
    dailies.coverage();
    dailies.outcomes.print();
    dailies.draw = Draw(SEED + 10);
    dailies.counted(COUNTED_DAILIES);
    dailies.tally
}

fn forecasts(method: &Method) -> Tally {
    let mut forecasts = Forecasts { method, draw: Draw(SEED + 11), tally: Tally::default(), outcomes: Outcomes::default() };
    forecasts.figures();
    forecasts.random(RANDOM_FORECASTS);
    forecasts.coverage();
    forecasts.outcomes.print();
    forecasts.larger(LARGER_FORECASTS);
    forecasts.tally
}

fn boundary_sections(method: &Method) -> Tally {
    let mut worked = Worked { method, tally: Tally::default() };
    worked.boundary_sections();
    worked.tally
}

fn examples(method: &Method) -> Tally {
    let mut worked = Worked { method, tally: Tally::default() };
    worked.examples();
    worked.tally
}

fn quick(total: &mut Tally) {
    let method = &Method::new();
    println!("seed {SEED}");
    group(total, "figures worked out by hand", || boundary_sections(method));
    group(total, "traps", || filled(|tally| traps::traps(method, tally)));
    group(total, "examples of chapter 26", || examples(method));
    group(total, "curves by a stride", || filled(|tally| curves::by_stride(method, tally)));
    group(total, "curves under weather", || filled(|tally| curves::under_weather(method, tally)));
    group(total, "table entries", || filled(|tally| curves::table_entries(method, tally)));
    group(total, "random cases", || random_cases(method));
    group(total, "service volumes by every demand", || every_demand(method));
    group(total, "floats", || filled(|tally| floats::by_stride(tally, &mut Draw(SEED + 2))));
    group(total, "laws", || filled(|tally| laws::sample(method, &mut Draw(SEED + 3), tally, LAW_CASES)));
    group(total, "days", || whole_days(method));
    group(total, "demands tried", || tries(method));
    group(total, "distances from the curve", || distances(method));
    group(total, "daily volumes", || daily_volumes(method));
    group(total, "published daily volumes of E", || filled(printed::daily_volumes));
    group(total, "forecasts", || forecasts(method));
    group(total, "vectors", || filled(|tally| vectors::check(method, tally)));
}

fn full_curves(total: &mut Tally) {
    let method = &Method::new();
    for kind in [Kind::Freeway, Kind::Multilane] {
        group(total, &format!("curves, {kind:?}"), || curves::full(method, kind));
    }
}

fn full_floats(total: &mut Tally) {
    for unit in [Unit::MilesPerHour, Unit::KilometresPerHour] {
        group(total, &format!("floats, {unit:?}"), || {
            let counts = floats::full(unit);
            println!("{unit:?}: {} accepted, {} refused", counts.accepted, counts.refused);
            counts.tally
        });
    }
}

fn main() {
    let arguments: Vec<String> = std::env::args().skip(1).collect();
    let mut total = Tally::default();
    match arguments.iter().map(String::as_str).collect::<Vec<_>>()[..] {
        ["quick"] => quick(&mut total),
        ["full-curves"] => full_curves(&mut total),
        ["full-floats"] => full_floats(&mut total),
        ["full-distances"] => group(&mut total, "distances from the curve", distances::full),
        ["full-weather"] => group(&mut total, "falls of the speed under weather", falls::full),
        ["los", path] => {
            let method = &Method::new();
            group(&mut total, "lines through los", || filled(|tally| los::random_lines(method, &mut Draw(SEED + 4), tally, path)));
        }
        ["write-vectors"] => return vectors::write(&Method::new()),
        _ => {
            println!("usage: compare quick | full-curves | full-floats | full-distances | full-weather | los PATH | write-vectors");
            exit(2);
        }
    }
    println!("compare: {} checks, {} differences", total.checks, total.differences);
    exit(i32::from(total.differences > 0));
}
