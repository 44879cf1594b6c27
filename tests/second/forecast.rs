// Forecasts known within ranges: the letters nearest to A and to F that any whole combination gets of a demand, a heavy share and a
// peak-hour factor within their ends, each with the combination at which it is shown.
//
// Where there are few combinations, each is tried, however letters follow each other. Where there are many, the two shown ones are tried,
// which rests on letters not getting better with more demand, a greater share or a lower factor. Shares and factors are in thousandths.

use super::figures;
use super::lines::{parse, MALFORMED};
use super::method::{flow_rate, planner_refusal, Case, Curve, Method, Refusal};
use std::ops::RangeInclusive;

// FORECAST-3: the numbers of an answer, the best letter, its demand, share and factor, then the worst letter, its demand, share and factor.
pub const FIGURES: usize = 8;

// Up to so many combinations are all tried.
pub const MOST_TRIED: u64 = 5_000;

const ENDS_REVERSED: Refusal = 22;

// FORECAST-4: the refusals of a well-formed line and its ranges, in their order, those of a case and 22 before 7.
const ORDER: [Refusal; 12] = [1, 2, 3, 4, 5, 6, ENDS_REVERSED, 7, 8, 9, 19, 10];

// FORECAST-1: the low and the high end of a range.
pub type Ends = [u64; 2];

#[derive(Clone, Copy, PartialEq, Eq, Debug)]
pub struct Ranges {
    pub demand: Ends,
    pub share: Ends,
    pub factor: Ends,
}

#[derive(Clone, Copy, PartialEq, Eq, Debug)]
pub struct Combination {
    pub demand: u64,
    pub share: u64,
    pub factor: u64,
}

impl Combination {
    // CASE-3: a case with this combination in the place of its own.
    pub fn of(&self, case: &Case) -> Case {
        let Combination { demand, share, factor } = *self;
        Case { demand, share, factor, ..*case }
    }
}

fn within([low, high]: Ends) -> RangeInclusive<u64> {
    low..=high
}

impl Ranges {
    fn all(&self) -> [Ends; 3] {
        [self.demand, self.share, self.factor]
    }

    // REFUSAL-22.
    fn reversed(&self) -> bool {
        self.all().iter().any(|[low, high]| low > high)
    }

    // FORECAST-3: the two combinations that are shown.
    pub fn shown(&self) -> [Combination; 2] {
        let Ranges { demand: [demand_low, demand_high], share: [share_low, share_high], factor: [factor_low, factor_high] } = *self;
        let best = Combination { demand: demand_low, share: share_low, factor: factor_high };
        let worst = Combination { demand: demand_high, share: share_high, factor: factor_low };
        [best, worst]
    }

    // FORECAST-1: how many combinations there are, of ranges that 22 and 7 to 9 do not refuse.
    pub fn count(&self) -> u64 {
        self.all().iter().map(|[low, high]| high - low + 1).product()
    }

    // FORECAST-1: all of them.
    fn combinations(&self) -> impl Iterator<Item = Combination> {
        let Ranges { demand, share, factor } = *self;
        let pairs = within(demand).flat_map(move |demand| within(share).map(move |share| (demand, share)));
        pairs.flat_map(move |(demand, share)| within(factor).map(move |factor| Combination { demand, share, factor }))
    }
}

// FORECAST-4, ORDER-1: the first refusal in the order. The two shown combinations have both ends of each range between them, and each brings its
// own first.
fn refusal(method: &Method, case: &Case, ranges: &Ranges) -> Option<Refusal> {
    let [at_best, at_worst] = ranges.shown().map(|combination| {
        let case = combination.of(case);
        planner_refusal(&case).or_else(|| method.curve(&case).err())
    });
    let met = [at_best, at_worst, ranges.reversed().then_some(ENDS_REVERSED)];
    ORDER.into_iter().find(|&number| met.contains(&Some(number)))
}

// A case, of which demand, share and factor are not used, with its curve, which rests on none of them, and ranges.
pub struct Forecast<'a> {
    method: &'a Method,
    case: Case,
    curve: Curve,
    ranges: Ranges,
}

impl Forecast<'_> {
    // Of a line and ranges, or their first refusal: 15, then those of the order.
    pub fn new<'a>(method: &'a Method, line: &[u8], ranges: &Ranges) -> Result<Forecast<'a>, Refusal> {
        let case = parse(line).ok_or(MALFORMED)?;
        if let Some(number) = refusal(method, &case, ranges) {
            return Err(number);
        }
        Ok(Forecast { method, case, curve: method.curve(&case)?, ranges: *ranges })
    }

    // The letter of a combination within the ends.
    pub fn letter(&self, combination: &Combination) -> u32 {
        self.method.letter(&self.curve, flow_rate(&combination.of(&self.case)))
    }

    // FORECAST-2: the best and the worst letter of all combinations, each tried.
    pub fn letters_by_every_combination(&self) -> [u32; 2] {
        let letters = self.ranges.combinations().map(|combination| [self.letter(&combination); 2]);
        let met = letters.reduce(|[best, worst], [letter, _]| [best.min(letter), worst.max(letter)]);
        met.expect("the ends are a combination")
    }

    // The letters of the two shown combinations.
    fn letters_at_shown_combinations(&self) -> [u32; 2] {
        self.ranges.shown().map(|combination| self.letter(&combination))
    }

    fn letters(&self) -> [u32; 2] {
        if self.ranges.count() <= MOST_TRIED {
            self.letters_by_every_combination()
        } else {
            self.letters_at_shown_combinations()
        }
    }

    fn numbers(&self) -> Vec<u64> {
        let ([best, worst], [at_best, at_worst]) = (self.letters().map(u64::from), self.ranges.shown());
        vec![best, at_best.demand, at_best.share, at_best.factor, worst, at_worst.demand, at_worst.share, at_worst.factor]
    }
}

// CALL-9, CALL-4: hands back the count of numbers, or minus the first refusal and writes nothing: 17, then those of the line and its ranges.
pub fn forecast(method: &Method, line: &[u8], ranges: &Ranges, figures: &mut [u64]) -> i32 {
    figures::written(Forecast::new(method, line, ranges).map(|forecast| forecast.numbers()), FIGURES, figures)
}
