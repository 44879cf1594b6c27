// ACCURACY-2: a shown multilane speed stays within 26 thousandths of mi/h below the manual's curve and does not pass it.
// The engine's speeds are judged by the second implementation's curve, which is by whole powers: points with their figures, random points,
// random cases, and the points that are farthest from the curve and nearest to it. Floats pick those out of all, by the second
// implementation's speeds, which the engine's must equal.

use super::curves::clear_road;
use super::draw::{draw_accepted_case, line_of, Draw};
use super::engine;
use super::tally::{in_parts, Tally, PARTS};
use crate::second::distance::{at_most_curve, whole_thousandths_below};
use crate::second::method::{Case, Curve, Kind, Method};

// ACCURACY-2.
const TOLERANCE: u64 = 26;
// The most whole thousandths that any point has, which is less than what is proved.
const MOST: u64 = 22;
// How many points lie past the breakpoint, up to capacity.
const POINTS: u64 = 18_490_900;

// ACCURACY-3: free-flow speed, flow rate, shown speed, and how many whole thousandths it is below the curve.
const FIGURES: &[(u64, u64, u64, u64)] = &[
    (69_923, 2_292, 51_307, 22),
    (70_000, 2_292, 51_308, 22),
    (60_000, 1_401, 59_996, 2),
    (60_000, 1_400, 60_000, 0),
    (60_000, 1_800, 55_518, 0),
    (65_000, 2_300, 51_111, 0),
    (45_000, 1_900, 42_222, 0),
    (63_462, 1_822, 58_396, 7),
    (64_634, 1_714, 61_148, 4),
    (45_000, 0, 45_000, 0),
];

// F, c, v and speed of the engine's answer to a case; none where the case is refused.
fn figures_of(case: &Case) -> Option<[u64; 4]> {
    let text = engine::answer_text(&line_of(case));
    let figures: Vec<u64> = text.split('\t').skip(1).take(4).map_while(|field| field.parse().ok()).collect();
    figures.try_into().ok()
}

// The speed that the engine shows at a point: on two lanes with H = 1,000 and P = 0 the demand 2v has the flow rate v.
fn shown_speed(free_flow_speed: u64, flow_rate: u64) -> Option<u64> {
    let case = Case { demand: 2 * flow_rate, ..clear_road(Kind::Multilane, free_flow_speed) };
    figures_of(&case).map(|[_, _, _, speed]| speed)
}

// How many whole thousandths a shown speed is below the curve; none where it is above, or by 26 or more below.
fn below_curve(free_flow_speed: u64, flow_rate: u64, shown: u64) -> Option<u64> {
    if at_most_curve(free_flow_speed, flow_rate, shown + TOLERANCE) {
        return None;
    }
    whole_thousandths_below(free_flow_speed, flow_rate, shown)
}

// Every free-flow speed with every flow rate past the breakpoint and up to capacity.
fn points(free_flow_speeds: impl Iterator<Item = u64>) -> impl Iterator<Item = (u64, u64)> {
    let flow_rates = |speed| Kind::Multilane.breakpoint(speed) / 100 + 1..=Kind::Multilane.capacity(speed) / 100;
    free_flow_speeds.flat_map(move |speed| flow_rates(speed).map(move |flow_rate| (speed, flow_rate)))
}

// The curve less the shown speed, as floats have it: to pick points by, not to judge them.
fn roughly_below(method: &Method, free_flow_speed: u64, flow_rate: u64) -> f64 {
    let curve = Curve::clear(Kind::Multilane, free_flow_speed);
    let [f, c, b] = [curve.free_flow_speed, curve.capacity, curve.breakpoint].map(|number| number as f64);
    let share = ((100.0 * flow_rate as f64 - b) / (c - b)).powf(1.31);
    f - (f - 10.0 * c / 45.0) * share - method.service(&curve, flow_rate).speed as f64
}

pub struct Distances<'a> {
    pub method: &'a Method,
    pub tally: Tally,
    // The most whole thousandths below the curve, with F and v, and how many points were worked out by whole powers.
    most: Option<(u64, u64, u64)>,
    worked_out: u64,
}

impl Distances<'_> {
    pub fn new(method: &Method) -> Distances<'_> {
        Distances { method, tally: Tally::default(), most: None, worked_out: 0 }
    }

    // ACCURACY-1, ACCURACY-2: a point by whole powers, with the speed that the engine shows there.
    fn point(&mut self, free_flow_speed: u64, flow_rate: u64) -> Option<u64> {
        let place = || format!("F = {free_flow_speed}, v = {flow_rate}");
        let expected = self.method.service(&Curve::clear(Kind::Multilane, free_flow_speed), flow_rate).speed;
        let shown = shown_speed(free_flow_speed, flow_rate);
        self.tally.equal(shown, Some(expected), || format!("{}, shown speed", place()));
        let below = below_curve(free_flow_speed, flow_rate, shown?);
        self.tally.check(below.is_some(), || format!("{}: {shown:?} is above the curve, or {TOLERANCE} or more below it", place()));
        self.worked_out += 1;
        if below > self.most.map(|(most, ..)| most) {
            self.most = below.map(|below| (below, free_flow_speed, flow_rate));
        }
        below
    }

    pub fn figures(&mut self) {
        for &(free_flow_speed, flow_rate, shown, below) in FIGURES {
            let place = || format!("F = {free_flow_speed}, v = {flow_rate}");
            self.tally.equal(shown_speed(free_flow_speed, flow_rate), Some(shown), || format!("{}, shown speed", place()));
            let got = self.point(free_flow_speed, flow_rate);
            self.tally.equal(got, Some(below), || format!("{}, thousandths below the curve", place()));
        }
    }

    pub fn random_points(&mut self, draw: &mut Draw, count: u64) {
        for _ in 0..count {
            let free_flow_speed = draw.from(*Kind::Multilane.free_flow_speeds().start(), *Kind::Multilane.free_flow_speeds().end());
            let least = if draw.once_in(20) { 0 } else { Kind::Multilane.breakpoint(free_flow_speed) / 100 };
            let flow_rate = draw.from(least, Kind::Multilane.capacity(free_flow_speed) / 100);
            self.point(free_flow_speed, flow_rate);
        }
    }

    // Accepted multilane cases, by the figures of their answers.
    pub fn random_cases(&mut self, draw: &mut Draw, count: u64) {
        let mut past_breakpoint = 0;
        for _ in 0..count {
            let case = draw_accepted_case(draw, self.method);
            if case.kind != Kind::Multilane {
                continue;
            }
            let answer = self.method.answer(&case).expect("the case is accepted");
            let (f, c, v) = (answer.free_flow_speed, answer.capacity, answer.flow_rate);
            let Some([.., speed]) = figures_of(&case).filter(|figures| figures[..3] == [f, c, v]) else {
                self.tally.check(false, || format!("{case:?}: F, c and v are {f}, {c} and {v}"));
                continue;
            };
            if 100 * v > c {
                self.tally.equal(speed, 0, || format!("above capacity: {case:?}"));
                continue;
            }
            let below = below_curve(f, v, speed);
            self.tally.check(below.is_some(), || format!("{case:?}: {speed} is above the curve, or {TOLERANCE} or more below it"));
            past_breakpoint += u64::from(100 * v > Kind::Multilane.breakpoint(f));
        }
        self.tally.check(past_breakpoint > count / 10, || format!("{past_breakpoint} cases only past the breakpoint"));
    }

    // Of all points those that floats have farthest below the curve, and those that they have on it.
    pub fn worst_points(&mut self) {
        let (mut all, mut least, mut most) = (0, f64::MAX, f64::MIN);
        for (free_flow_speed, flow_rate) in points(Kind::Multilane.free_flow_speeds()) {
            let below = roughly_below(self.method, free_flow_speed, flow_rate);
            (all, least, most) = (all + 1, below.min(least), below.max(most));
            if below > MOST as f64 || below < 1e-3 {
                self.point(free_flow_speed, flow_rate);
            }
        }
        self.tally.equal(self.most.map(|(most, ..)| most), Some(MOST), || "most whole thousandths below the curve".to_string());
        self.tally.equal(all, POINTS, || "points past the breakpoint".to_string());
        let near = least > -1e-6 && most < (MOST + 1) as f64;
        self.tally.check(near, || format!("floats have speeds from {least} to {most} below the curve"));
    }

    pub fn print(&self) {
        if let Some((most, f, v)) = self.most {
            let rough = roughly_below(self.method, f, v);
            let points = self.worked_out;
            println!(
                "most below the curve, of {points} points by whole powers: {most} whole thousandths ({rough:.4}), at F = {f}, v = {v}"
            );
        }
    }
}

// ACCURACY-2: every point by whole powers: the engine's speed is at most the curve, and 23 more are not.
pub fn full() -> Tally {
    in_parts(|part| {
        let mut tally = Tally::default();
        for (f, v) in points(Kind::Multilane.free_flow_speeds().filter(|speed| speed % PARTS == part)) {
            let shown = shown_speed(f, v);
            let near = shown.is_some_and(|shown| at_most_curve(f, v, shown) && !at_most_curve(f, v, shown + MOST + 1));
            tally.check(near, || format!("F = {f}, v = {v}: {shown:?} is above the curve, or more than {MOST} below it"));
        }
        tally
    })
}
