// The answer to a case, and the lanes question.
//
// Each figure is in its unit of UNIT-1.

use super::big::Big;
use std::ops::RangeInclusive;
use std::sync::OnceLock;

pub const GREATEST_DEMAND: u64 = 999_999;

// LETTER-3: letters by number, A is 1, F is 6.
pub const LETTER_E: u32 = 5;
pub const LETTER_F: u32 = 6;

// LETTER-1: the greatest density of the letters A to E.
const DENSITY_LIMITS: [u64; 5] = [110, 180, 260, 350, 450];

// A row of a clearance table: points of a clearance, in tenths of a foot, and what it takes off.
type Row = [(i64, i64); 7];

// FFS-4: right clearance at 6, 5, 4, 3, 2, 1 and 0 feet, for 2, 3, 4, and 5 and more lanes.
const RIGHT_CLEARANCE: [Row; 4] = [
    [(60, 0), (50, 600), (40, 1_200), (30, 1_800), (20, 2_400), (10, 3_000), (0, 3_600)],
    [(60, 0), (50, 400), (40, 800), (30, 1_200), (20, 1_600), (10, 2_000), (0, 2_400)],
    [(60, 0), (50, 200), (40, 400), (30, 600), (20, 800), (10, 1_000), (0, 1_200)],
    [(60, 0), (50, 100), (40, 200), (30, 300), (20, 400), (10, 500), (0, 600)],
];

// FFS-5: total clearance at 12, 10, 8, 6, 4, 2 and 0 feet, for 2 and for 3 lanes.
const TOTAL_CLEARANCE: [Row; 2] = [
    [(120, 0), (100, 400), (80, 900), (60, 1_300), (40, 1_800), (20, 3_600), (0, 5_400)],
    [(120, 0), (100, 400), (80, 900), (60, 1_300), (40, 1_700), (20, 2_800), (0, 3_900)],
];

// The greatest clearance that counts on one side.
const GREATEST_CLEARANCE: u64 = 60;

#[derive(Clone, Copy, PartialEq, Eq, Debug)]
pub enum Kind {
    Freeway,
    Multilane,
}

#[derive(Clone, Copy, PartialEq, Eq, Debug)]
pub enum Way {
    Estimated,
    Given,
}

#[derive(Clone, Copy, PartialEq, Eq, Debug)]
pub enum Median {
    Undivided,
    Divided,
    TurnLane,
}

#[derive(Clone, Copy, PartialEq, Eq, Debug)]
pub enum Terrain {
    Level,
    Rolling,
}

#[derive(Clone, Copy, PartialEq, Eq, Debug)]
pub struct Weather {
    pub speed_factor: u64,
    pub capacity_factor: u64,
}

// CASE-1, CASE-2: a road's eight fields, of which `access` is ramps or access points, and what is put on it.
#[derive(Clone, Copy, PartialEq, Eq, Debug)]
pub struct Case {
    pub kind: Kind,
    pub way: Way,
    pub speed: u64,
    pub width: u64,
    pub right: u64,
    pub left: u64,
    pub median: Median,
    pub access: u64,
    pub lanes: u64,
    pub demand: u64,
    pub factor: u64,
    pub share: u64,
    pub terrain: Terrain,
    pub weather: Weather,
}

// ANSWER-1: the eleven figures.
#[derive(Clone, Copy, PartialEq, Eq, Debug)]
pub struct Answer {
    pub letter: u32,
    pub free_flow_speed: u64,
    pub capacity: u64,
    pub flow_rate: u64,
    pub speed: u64,
    pub density: u64,
    pub service_volumes: [u64; 5],
}

// F, c and b after the factors.
#[derive(Clone, Copy, PartialEq, Eq, Debug)]
pub struct Curve {
    pub kind: Kind,
    pub free_flow_speed: u64,
    pub capacity: u64,
    pub breakpoint: u64,
}

// What a flow rate gets on a curve.
#[derive(Clone, Copy, PartialEq, Eq, Debug)]
pub struct Service {
    pub letter: u32,
    pub speed: u64,
    pub density: u64,
}

pub type Refusal = i32;

// UNIT-2, UNIT-3: a fraction that is not negative, exact until it is rounded.
#[derive(Clone, Copy)]
pub struct Fraction {
    over: u128,
    under: u128,
}

impl Fraction {
    fn new(over: u64, under: u64) -> Fraction {
        Fraction { over: u128::from(over), under: u128::from(under) }
    }

    fn whole(value: u64) -> Fraction {
        Fraction::new(value, 1)
    }

    fn times(self, other: Fraction) -> Fraction {
        Fraction { over: self.over * other.over, under: self.under * other.under }
    }

    fn minus(self, other: Fraction) -> Fraction {
        Fraction { over: self.over * other.under - other.over * self.under, under: self.under * other.under }
    }

    fn divided_by(self, other: Fraction) -> Fraction {
        Fraction { over: self.over * other.under, under: self.under * other.over }
    }

    fn at_most(self, limit: u64) -> bool {
        self.over <= u128::from(limit) * self.under
    }

    pub fn rounded_down(self) -> u64 {
        (self.over / self.under) as u64
    }

    pub fn rounded_up(self) -> u64 {
        self.over.div_ceil(self.under) as u64
    }
}

impl Weather {
    pub const CLEAR: Weather = Weather { speed_factor: 1_000, capacity_factor: 1_000 };
}

impl Kind {
    // KIND-1, FFS-10: the ends of F before the factors.
    pub fn free_flow_speeds(self) -> RangeInclusive<u64> {
        match self {
            Kind::Freeway => 55_000..=75_000,
            Kind::Multilane => 45_000..=70_000,
        }
    }

    // WEATHER-2, REFUSAL-10: the lower end of F after its factor.
    pub fn least_speed_after_factors(self) -> u64 {
        match self {
            Kind::Freeway => 50_000,
            Kind::Multilane => *self.free_flow_speeds().start(),
        }
    }

    // WEATHER-1, REFUSAL-19: the ends of both factors.
    pub fn weather_factors(self) -> RangeInclusive<u64> {
        match self {
            Kind::Freeway => 500..=1_000,
            Kind::Multilane => 1_000..=1_000,
        }
    }

    // KIND-1, REFUSAL-6.
    pub fn lane_counts(self) -> RangeInclusive<u64> {
        match self {
            Kind::Freeway => 2..=8,
            Kind::Multilane => 2..=3,
        }
    }

    // KIND-1, REFUSAL-5.
    pub fn greatest_access(self) -> u64 {
        match self {
            Kind::Freeway => 48,
            Kind::Multilane => 200,
        }
    }

    // CURVE-1: c.
    pub fn capacity(self, free_flow_speed: u64) -> u64 {
        match self {
            Kind::Freeway => 240_000.min(170_000 + free_flow_speed),
            Kind::Multilane => 230_000.min(100_000 + 2 * free_flow_speed),
        }
    }

    // CURVE-2: b.
    pub fn breakpoint(self, free_flow_speed: u64) -> u64 {
        match self {
            Kind::Freeway => 400_000 - 4 * free_flow_speed,
            Kind::Multilane => 140_000,
        }
    }
}

impl Curve {
    // WEATHER-3: from F after its factor; rounded down behind the last product.
    pub fn new(kind: Kind, free_flow_speed: u64, capacity_factor: u64) -> Curve {
        Curve {
            kind,
            free_flow_speed,
            capacity: kind.capacity(free_flow_speed) * capacity_factor / 1_000,
            breakpoint: kind.breakpoint(free_flow_speed) * capacity_factor * capacity_factor / 1_000_000,
        }
    }

    pub fn clear(kind: Kind, free_flow_speed: u64) -> Curve {
        Curve::new(kind, free_flow_speed, Weather::CLEAR.capacity_factor)
    }
}

impl Answer {
    // ANSWER-1, LETTER-3: the eleven figures in their order, the letter by its number.
    pub fn figures(&self) -> [u64; 11] {
        let Answer { letter, free_flow_speed, capacity, flow_rate, speed, density, service_volumes: [a, b, c, d, e] } = *self;
        [u64::from(letter), free_flow_speed, capacity, flow_rate, speed, density, a, b, c, d, e]
    }
}

// FLOW-1: the passenger cars of a thousand vehicles. The truck equivalent E is 2 on level terrain, 3 on rolling.
pub fn passenger_cars(case: &Case) -> u64 {
    let equivalent = match case.terrain {
        Terrain::Level => 2,
        Terrain::Rolling => 3,
    };
    1_000 + case.share * (equivalent - 1)
}

// FLOW-2: v.
pub fn flow_rate(case: &Case) -> u64 {
    (case.demand * passenger_cars(case)).div_ceil(case.factor * case.lanes)
}

// REFUSAL-1 to REFUSAL-9, REFUSAL-19, ORDER-2: the first of 1 to 9, in the order of the numbers, then 19.
pub fn planner_refusal(case: &Case) -> Option<Refusal> {
    let Case { kind, weather, .. } = *case;
    let weather_fits = [weather.speed_factor, weather.capacity_factor].iter().all(|factor| kind.weather_factors().contains(factor));
    let refusals = [
        (1, !(30_000..=90_000).contains(&case.speed)),
        (2, !(100..=200).contains(&case.width)),
        (3, case.right > 400 || case.left > 400),
        (4, kind == Kind::Freeway && case.median != Median::Divided),
        (5, case.access > kind.greatest_access()),
        (6, !kind.lane_counts().contains(&case.lanes)),
        (7, case.demand > GREATEST_DEMAND),
        (8, !(250..=1_000).contains(&case.factor)),
        (9, case.share > 1_000),
        (19, !weather_fits),
    ];
    refusals.iter().find(|(_, holds)| *holds).map(|(number, _)| *number)
}

// FFS-3: by the lane width.
fn lane_width_adjustment(width: u64) -> u64 {
    if width >= 120 {
        0
    } else if width >= 110 {
        1_900
    } else {
        6_600
    }
}

// FFS-9: the clearance x lies between two neighbouring points, and the straight line through them takes
// y0 + (y1 − y0) × (x − x0) / (x1 − x0) off, which is whole.
fn interpolated(row: &Row, clearance: u64) -> u64 {
    let x = clearance as i64;
    let neighbours = row.iter().zip(&row[1..]).find(|&(&(x0, _), &(x1, _))| x0 >= x && x >= x1);
    let (&(x0, y0), &(x1, y1)) = neighbours.expect("the clearance lies in the table");
    let (over, under) = ((y1 - y0) * (x - x0), x1 - x0);
    assert_eq!(over % under, 0, "all results are whole");
    (y0 + over / under) as u64
}

// FFS-4.
fn right_clearance_adjustment(right: u64, lanes: u64) -> u64 {
    interpolated(&RIGHT_CLEARANCE[lanes.min(5) as usize - 2], right.min(GREATEST_CLEARANCE))
}

// FFS-5: a side counts up to 60, the left as 60 but with median D.
fn total_clearance_adjustment(case: &Case) -> u64 {
    let left = if case.median == Median::Divided { case.left.min(GREATEST_CLEARANCE) } else { GREATEST_CLEARANCE };
    interpolated(&TOTAL_CLEARANCE[case.lanes as usize - 2], case.right.min(GREATEST_CLEARANCE) + left)
}

// FFS-6.
fn median_adjustment(median: Median) -> u64 {
    if median == Median::Undivided {
        1_600
    } else {
        0
    }
}

// FFS-7.
fn access_adjustment(points: u64) -> u64 {
    (250 * points).min(10_000)
}

// UNIT-4: the least whole number from 0 to `most` for which a condition holds that holds from there on.
pub fn least(most: u32, holds: impl Fn(u32) -> bool) -> u32 {
    let (mut low, mut high) = (0, most);
    while low < high {
        let middle = low + (high - low) / 2;
        if holds(middle) {
            high = middle;
        } else {
            low = middle + 1;
        }
    }
    low
}

// FFS-8: 0 for k = 0, else the whole t with (2t − 1)^25 × 6^21 ≤ 6,440^25 × k^21 < (2t + 1)^25 × 6^21. The least t with the second inequality
// is found, and must have the first. It is not 0, since 6,440^25 × k^21 is above 6^21 from k = 1 on.
fn ramp_term(ramps: u32) -> u64 {
    if ramps == 0 {
        return 0;
    }
    let side = |odd: u32| Big::one().times_power(odd, 25).times_power(6, 21);
    let middle = Big::one().times_power(6_440, 25).times_power(ramps, 21);
    let t = least(1_000_000, |t| middle < side(2 * t + 1));
    assert!(side(2 * t - 1) <= middle, "one t has both inequalities");
    u64::from(t)
}

// CURVE-5: T(i), the least whole t with i^131 × 10^207 ≤ t^100.
fn power_131(i: u32) -> u64 {
    let bound = Big::one().times_power(i, 131).times_power(10, 207);
    u64::from(least(2_000_000, |t| bound <= Big::one().times_power(t, 100)))
}

// Flow rates from `first` to `last` that all get one letter.
struct Run {
    first: u64,
    last: u64,
    letter: u32,
}

// VOLUME-2: the greatest demand that gets a letter or a better one. From the last run of such letters down: the greatest demand whose flow rate is
// at most the run's last is the answer, unless its flow rate lies before the run, and then no demand's flow rate lies in it. This rests on
// flow rates rising with demand, not on letters worsening with flow rates.
fn service_volume(runs: &[Run], case: &Case, letter: u32) -> u64 {
    for run in runs.iter().rev().filter(|run| run.letter <= letter) {
        let demand = (run.last * case.factor * case.lanes / passenger_cars(case)).min(GREATEST_DEMAND);
        if flow_rate(&Case { demand, ..*case }) >= run.first {
            return demand;
        }
    }
    unreachable!("demand 0 gets A")
}

// Of numbers with their letters, the last that gets A, the last that gets B or a better one, and so on to E. One of them gets A.
pub fn last_that_meet(letters: impl Iterator<Item = (u64, u32)>) -> [u64; 5] {
    let mut last = [0; 5];
    for (number, letter) in letters {
        // From the place of the letter on; F, the sixth, has none.
        last[letter as usize - 1..].fill(number);
    }
    last
}

pub struct Method {
    ramp_terms: Vec<u64>,
    powers: Vec<u64>,
    kept_runs: [Vec<OnceLock<Vec<Run>>>; 2],
}

impl Method {
    pub fn new() -> Method {
        let speeds = |kind: Kind| kind.free_flow_speeds().map(|_| OnceLock::new()).collect();
        Method {
            ramp_terms: (0..=48).map(ramp_term).collect(),
            powers: (0..=1_000).map(power_131).collect(),
            kept_runs: [speeds(Kind::Freeway), speeds(Kind::Multilane)],
        }
    }

    pub fn power(&self, i: u64) -> u64 {
        self.powers[i as usize]
    }

    // FFS-2: what width, clearance, ramps, median and access take off the base speed.
    pub fn adjustments(&self, case: &Case) -> u64 {
        let width = lane_width_adjustment(case.width);
        match case.kind {
            Kind::Freeway => width + right_clearance_adjustment(case.right, case.lanes) + self.ramp_terms[case.access as usize],
            Kind::Multilane => width + total_clearance_adjustment(case) + median_adjustment(case.median) + access_adjustment(case.access),
        }
    }

    // FFS-1, FFS-10, WEATHER-2, REFUSAL-10: F, after its factor, of a case that 1 to 9 and 19 do not refuse, or refusal 10. The upper end comes
    // before the factor, and the product is rounded down.
    pub fn free_flow_speed(&self, case: &Case) -> Result<u64, Refusal> {
        let speed = match case.way {
            Way::Given => case.speed,
            Way::Estimated => case.speed - self.adjustments(case),
        };
        let ends = case.kind.free_flow_speeds();
        if speed < *ends.start() {
            return Err(10);
        }
        let after_factor = speed.min(*ends.end()) * case.weather.speed_factor / 1_000;
        if after_factor < case.kind.least_speed_after_factors() {
            return Err(10);
        }
        Ok(after_factor)
    }

    // The curve of a case that 1 to 9 and 19 do not refuse, or refusal 10.
    pub fn curve(&self, case: &Case) -> Result<Curve, Refusal> {
        Ok(Curve::new(case.kind, self.free_flow_speed(case)?, case.weather.capacity_factor))
    }

    // CURVE-3 to CURVE-5: S of a flow rate up to capacity, exactly.
    fn speed(&self, curve: &Curve, flow_rate: u64) -> Fraction {
        let (b, c) = (curve.breakpoint, curve.capacity);
        if 100 * flow_rate <= b {
            return Fraction::whole(curve.free_flow_speed);
        }
        let part = Fraction::new(100 * flow_rate - b, c - b);
        let weight = match curve.kind {
            Kind::Freeway => part.times(part),
            Kind::Multilane => millionths(self.power(Fraction::whole(1_000).times(part).rounded_up())),
        };
        speed_at_weight(curve, weight)
    }

    // LETTER-1, LETTER-2: the letter of a flow rate, from its exact density.
    pub fn letter(&self, curve: &Curve, flow_rate: u64) -> u32 {
        if 100 * flow_rate > curve.capacity {
            return LETTER_F;
        }
        letter_of_density(density(self.speed(curve, flow_rate), flow_rate))
    }

    // LETTER-2, CURVE-6, CURVE-7: the letter, with speed and density as they are shown.
    pub fn service(&self, curve: &Curve, flow_rate: u64) -> Service {
        if 100 * flow_rate > curve.capacity {
            return Service { letter: LETTER_F, speed: 0, density: 0 };
        }
        let speed = self.speed(curve, flow_rate);
        let density = density(speed, flow_rate);
        Service { letter: letter_of_density(density), speed: speed.rounded_down(), density: density.rounded_up() }
    }

    // The letters of all flow rates up to capacity, each tried, as runs.
    fn runs(&self, curve: &Curve) -> Vec<Run> {
        let mut runs: Vec<Run> = Vec::new();
        for flow_rate in 0..=curve.capacity / 100 {
            let letter = self.letter(curve, flow_rate);
            match runs.last_mut() {
                Some(run) if run.letter == letter => run.last = flow_rate,
                _ => runs.push(Run { first: flow_rate, last: flow_rate, letter }),
            }
        }
        runs
    }

    // The place that keeps the runs of a curve, if it is one of clear weather: there are too many others.
    fn kept_runs(&self, curve: &Curve) -> Option<&OnceLock<Vec<Run>>> {
        let Curve { kind, free_flow_speed, .. } = *curve;
        if *curve != Curve::clear(kind, free_flow_speed) {
            return None;
        }
        let slot = free_flow_speed.checked_sub(*kind.free_flow_speeds().start())?;
        self.kept_runs[kind as usize].get(slot as usize)
    }

    // VOLUME-2: the service volumes by trying every demand, however letters follow each other.
    pub fn service_volumes_by_every_demand(&self, case: &Case, curve: &Curve) -> [u64; 5] {
        last_that_meet((0..=GREATEST_DEMAND).map(|demand| (demand, self.letter(curve, flow_rate(&Case { demand, ..*case })))))
    }

    pub fn service_volumes(&self, case: &Case, curve: &Curve) -> [u64; 5] {
        let afresh = OnceLock::new();
        let runs = self.kept_runs(curve).unwrap_or(&afresh).get_or_init(|| self.runs(curve));
        [1, 2, 3, 4, 5].map(|letter| service_volume(runs, case, letter))
    }

    // ANSWER-1, ORDER-2.
    pub fn answer(&self, case: &Case) -> Result<Answer, Refusal> {
        if let Some(number) = planner_refusal(case) {
            return Err(number);
        }
        let curve = self.curve(case)?;
        let flow_rate = flow_rate(case);
        let service = self.service(&curve, flow_rate);
        Ok(Answer {
            letter: service.letter,
            free_flow_speed: curve.free_flow_speed,
            capacity: curve.capacity,
            flow_rate,
            speed: service.speed,
            density: service.density,
            service_volumes: self.service_volumes(case, &curve),
        })
    }

    // VOLUME-1, LANES-2: whether a case with some lane count, its F estimated anew, gets a letter or a better one.
    fn meets(&self, case: &Case, letter: u32) -> bool {
        match self.curve(case) {
            Ok(curve) => self.letter(&curve, flow_rate(case)) <= letter,
            Err(_) => false,
        }
    }

    // LANES-1 to LANES-3, REFUSAL-14: the lanes question, for a letter A to E.
    pub fn lanes(&self, case: &Case, letter: u32) -> Result<u64, Refusal> {
        if let Some(number) = planner_refusal(case) {
            return Err(number);
        }
        case.kind.lane_counts().find(|&lanes| self.meets(&Case { lanes, ..*case }, letter)).ok_or(14)
    }
}

pub fn millionths(count: u64) -> Fraction {
    Fraction::new(count, 1_000_000)
}

// CURVE-3: F − (F − 10c/45) × w.
pub fn speed_at_weight(curve: &Curve, weight: Fraction) -> Fraction {
    let free = Fraction::whole(curve.free_flow_speed);
    let at_capacity = Fraction::new(10 * curve.capacity, 45);
    free.minus(free.minus(at_capacity).times(weight))
}

// CURVE-7: the exact density, 10,000v / S.
pub fn density(speed: Fraction, flow_rate: u64) -> Fraction {
    Fraction::whole(10_000 * flow_rate).divided_by(speed)
}

fn letter_of_density(density: Fraction) -> u32 {
    let place = DENSITY_LIMITS.iter().position(|&limit| density.at_most(limit));
    1 + place.expect("up to capacity the density is at most 450") as u32
}
