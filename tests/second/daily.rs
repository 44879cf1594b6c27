// Daily traffic in the place of the demand: the answer to its hourly demand, and the five daily service volumes.
//
// A daily service volume is searched for over the daily traffic itself, by asking of each that is tried whether its hourly demand meets
// the letter. Shares are in thousandths.

use super::figures;
use super::lines::{parse, MALFORMED};
use super::method::{flow_rate, last_that_meet, least, Case, Curve, Method, Refusal, GREATEST_DEMAND};

// DAILY-3: the numbers of an answer, the eleven figures for the hourly demand, then the daily service volumes A to E.
pub const FIGURES: usize = 16;

pub const GREATEST_DAILY_TRAFFIC: u64 = 4_000_000_000;

const SHARE_UNFIT: Refusal = 20;
const DAILY_TRAFFIC_TOO_LARGE: Refusal = 21;

// DAILY-1: daily traffic × K × D / 1,000,000, rounded up, for any daily traffic and shares up to 1,000.
pub fn hourly_demand(daily_traffic: u64, peak_share: u64, direction_share: u64) -> u64 {
    let product = u128::from(daily_traffic) * u128::from(peak_share) * u128::from(direction_share);
    product.div_ceil(1_000_000) as u64
}

// An accepted case, of which the demand is not used, with its curve and the two shares.
pub struct Section<'a> {
    method: &'a Method,
    case: Case,
    curve: Curve,
    peak_share: u64,
    direction_share: u64,
}

impl Section<'_> {
    // Of a case that 1 to 6, 8, 9 and 19 do not refuse and of shares in range, or refusal 10.
    pub fn new<'a>(method: &'a Method, case: &Case, peak_share: u64, direction_share: u64) -> Result<Section<'a>, Refusal> {
        Ok(Section { method, case: *case, curve: method.curve(case)?, peak_share, direction_share })
    }

    // The letter of a daily traffic's hourly demand; none where 7 refuses that demand.
    fn letter(&self, daily_traffic: u64) -> Option<u32> {
        let demand = hourly_demand(daily_traffic, self.peak_share, self.direction_share);
        (demand <= GREATEST_DEMAND).then(|| self.method.letter(&self.curve, flow_rate(&Case { demand, ..self.case })))
    }

    // Whether a daily traffic's hourly demand gets a letter or a better one.
    pub fn meets(&self, daily_traffic: u64, letter: u32) -> bool {
        self.letter(daily_traffic).is_some_and(|got| got <= letter)
    }

    // DAILY-2: by halving, one less than the least daily traffic from 0 to 4,000,000,000 that does not meet the letter, or 4,000,000,000 where all
    // meet it. This rests on letters not getting better with more traffic. Daily traffic 0 gets A.
    fn daily_volume(&self, letter: u32) -> u64 {
        let beyond = u32::try_from(GREATEST_DAILY_TRAFFIC + 1).expect("it is below 2^32");
        u64::from(least(beyond, |daily_traffic| !self.meets(u64::from(daily_traffic), letter))) - 1
    }

    pub fn daily_volumes(&self) -> [u64; 5] {
        [1, 2, 3, 4, 5].map(|letter| self.daily_volume(letter))
    }

    // DAILY-2: the same by plain counting, of every daily traffic from 0 to the last that 7 lets pass, however letters follow each other. Meant for
    // large shares, with which there are few.
    pub fn daily_volumes_by_counting(&self) -> [u64; 5] {
        last_that_meet((0..=GREATEST_DAILY_TRAFFIC).map_while(|daily_traffic| Some((daily_traffic, self.letter(daily_traffic)?))))
    }
}

// DAILY-3, DAILY-6, REFUSAL-20, REFUSAL-21: the sixteen numbers, or the first refusal: 15, 20, 21, then that of the case with the hourly demand.
fn numbers(method: &Method, line: &[u8], daily_traffic: u64, peak_share: u64, direction_share: u64) -> Result<Vec<u64>, Refusal> {
    let case = parse(line).ok_or(MALFORMED)?;
    if ![peak_share, direction_share].iter().all(|share| (1..=1_000).contains(share)) {
        return Err(SHARE_UNFIT);
    }
    if daily_traffic > GREATEST_DAILY_TRAFFIC {
        return Err(DAILY_TRAFFIC_TOO_LARGE);
    }
    let case = Case { demand: hourly_demand(daily_traffic, peak_share, direction_share), ..case };
    let answer = method.answer(&case)?;
    let volumes = Section::new(method, &case, peak_share, direction_share)?.daily_volumes();
    Ok([&answer.figures()[..], &volumes].concat())
}

// CALL-8, CALL-4: hands back the count of numbers, or minus the first refusal and writes nothing: 17, then those of the line and its numbers.
pub fn daily(method: &Method, line: &[u8], daily_traffic: u64, peak_share: u32, direction_share: u32, figures: &mut [u64]) -> i32 {
    figures::written(numbers(method, line, daily_traffic, u64::from(peak_share), u64::from(direction_share)), FIGURES, figures)
}
