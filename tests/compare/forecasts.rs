// CALL-9: forecasts known within ranges, some calls with their figures, and random lines with random ranges and buffers of random
// length and content. What the engine hands back for a random call is also compared with its own single answers: those at the two
// combinations that it shows are its letters, and those at some combinations within the ends, which are the second implementation's too,
// lie between (FORECAST-5). Of some larger ranges every combination is tried (FORECAST-2).

use super::dailies::{MULTILANE, SNOW, WIDE};
use super::days::{LINE, MALFORMED, MALFORMED_LINES, SIX_DIGITS};
use super::draw::{draw_accepted_case, draw_case, draw_line_of, has_six_digits, line_of, move_past_limits, Draw};
use super::engine;
use super::laws::ask;
use super::lent::{draw_length, After, Lent};
use super::tally::{Outcomes, Tally};
use crate::second::forecast::{self, Combination, Ends, Forecast, Ranges, FIGURES, MOST_TRIED};
use crate::second::lines;
use crate::second::method::{Case, Method, GREATEST_DEMAND};

const fn ranges(demand: Ends, share: Ends, factor: Ends) -> Ranges {
    Ranges { demand, share, factor }
}

// The line of the days with another load of its own, with loads that 8 or 9 would refuse, and on level terrain.
const OTHER_LOAD: &str = "F E 75400 110 20 0 D 24 2 0 1000 0 R";
const UNFIT_FACTOR: &str = "F E 75400 110 20 0 D 24 2 999999 0 50 R";
const UNFIT_SHARE: &str = "F E 75400 110 20 0 D 24 2 100000 920 1001 R";
const LEVEL: &str = "F E 75400 110 20 0 D 24 2 2000 920 50 L";

// FORECAST-2, FORECAST-3: lines, ranges, and the eight numbers. Blanks stand for tabs.
//
// On the line of the days the flow rate is V × (1,000 + 2P) / 2H rounded up. The last ones of A to E are 668, 1,094, 1,580, 2,009 and
// 2,307, with S = 60,782 up to 1,568 and from there 60,782 − 9,497.1 × ((100v − 156,872) / 73,910)².
//   668: 6,680,000 / S = 109.90; 669: 110.07. 1,094: 179.99; 1,095: 180.15. 1,580: 259.95; 1,581: 260.12.
//   2,009: S = 57,411.90, 349.93; 2,010: S = 57,396.57, 350.20. 2,308 is above capacity.
const FORECASTS: &[(&str, Ranges, [u64; FIGURES])] = &[
    // 1,579.46 and 1,580.05.
    (LINE, ranges([2_642, 2_643], [50, 50], [920, 920]), [3, 2_642, 50, 920, 4, 2_643, 50, 920]),
    // 1,579.46, and with 919 it is 1,581.18.
    (LINE, ranges([2_642, 2_642], [50, 50], [919, 920]), [3, 2_642, 50, 920, 4, 2_642, 50, 919]),
    // 1,579.46, and with 51 it is 1,582.33.
    (LINE, ranges([2_642, 2_642], [50, 51], [920, 920]), [3, 2_642, 50, 920, 4, 2_642, 51, 920]),
    // 526.32 and 2,823.53.
    (LINE, ranges([1_000, 4_000], [0, 100], [850, 950]), [1, 1_000, 0, 950, 6, 4_000, 100, 850]),
    // 1,574.28 and 1,584.65.
    (LINE, ranges([2_641, 2_643], [49, 51], [919, 921]), [3, 2_641, 49, 921, 4, 2_643, 51, 919]),
    // At and past each service volume: 667.77 and 668.37; 1,093.42 and 1,094.02; 2,008.70 and 2,009.29; 2,306.41 and 2,307.01.
    (LINE, ranges([1_117, 1_118], [50, 50], [920, 920]), [1, 1_117, 50, 920, 2, 1_118, 50, 920]),
    (LINE, ranges([1_829, 1_830], [50, 50], [920, 920]), [2, 1_829, 50, 920, 3, 1_830, 50, 920]),
    (LINE, ranges([3_360, 3_361], [50, 50], [920, 920]), [4, 3_360, 50, 920, 5, 3_361, 50, 920]),
    (LINE, ranges([3_858, 3_859], [50, 50], [920, 920]), [5, 3_858, 50, 920, 6, 3_859, 50, 920]),
    // One quantity over its whole range: the greatest demand; 1,086.96 and 3,260.87; 1,100 and 4,400.
    (LINE, ranges([0, 999_999], [50, 50], [920, 920]), [1, 0, 50, 920, 6, 999_999, 50, 920]),
    (LINE, ranges([2_000, 2_000], [0, 1_000], [920, 920]), [2, 2_000, 0, 920, 6, 2_000, 1_000, 920]),
    (LINE, ranges([2_000, 2_000], [50, 50], [250, 1_000]), [3, 2_000, 50, 1_000, 6, 2_000, 50, 250]),
    (LINE, ranges([0, 999_999], [0, 1_000], [250, 1_000]), [1, 0, 0, 1_000, 6, 999_999, 1_000, 250]),
    // From five digits to six, and within six: 59,782.01, 59,782.61 and 597,825.49.
    (LINE, ranges([0, 99_999], [50, 50], [920, 920]), [1, 0, 50, 920, 6, 99_999, 50, 920]),
    (LINE, ranges([0, 100_000], [50, 50], [920, 920]), [1, 0, 50, 920, 6, 100_000, 50, 920]),
    (LINE, ranges([3_858, 999_999], [50, 50], [920, 920]), [5, 3_858, 50, 920, 6, 999_999, 50, 920]),
    (LINE, ranges([99_999, 100_000], [50, 50], [920, 920]), [6, 99_999, 50, 920, 6, 100_000, 50, 920]),
    (LINE, ranges([100_000, 999_999], [50, 50], [920, 920]), [6, 100_000, 50, 920, 6, 999_999, 50, 920]),
    // Every combination gets the letter, and the same two are shown: 0 and 5.67; 1,110.39 and 1,222.22; 2,700 and 60,000.
    (LINE, ranges([0, 10], [0, 10], [900, 1_000]), [1, 0, 0, 1_000, 1, 10, 10, 900]),
    (LINE, ranges([0, 0], [0, 1_000], [250, 1_000]), [1, 0, 0, 1_000, 1, 0, 1_000, 250]),
    (LINE, ranges([1_900, 2_000], [40, 50], [900, 924]), [3, 1_900, 40, 924, 3, 2_000, 50, 900]),
    (LINE, ranges([5_400, 10_000], [0, 1_000], [250, 1_000]), [6, 5_400, 0, 1_000, 6, 10_000, 1_000, 250]),
    // FORECAST-5: equal ends, at the limits too.
    (LINE, ranges([2_000, 2_000], [50, 50], [920, 920]), [3, 2_000, 50, 920, 3, 2_000, 50, 920]),
    (LINE, ranges([2_643, 2_643], [50, 50], [920, 920]), [4, 2_643, 50, 920, 4, 2_643, 50, 920]),
    (LINE, ranges([0, 0], [0, 0], [1_000, 1_000]), [1, 0, 0, 1_000, 1, 0, 0, 1_000]),
    (LINE, ranges([999_999, 999_999], [1_000, 1_000], [250, 250]), [6, 999_999, 1_000, 250, 6, 999_999, 1_000, 250]),
    // The line's own load is not used. Clear weather is written out.
    (OTHER_LOAD, ranges([2_642, 2_643], [50, 50], [920, 920]), [3, 2_642, 50, 920, 4, 2_643, 50, 920]),
    (UNFIT_FACTOR, ranges([2_642, 2_642], [50, 50], [919, 920]), [3, 2_642, 50, 920, 4, 2_642, 50, 919]),
    (UNFIT_SHARE, ranges([2_642, 2_642], [50, 51], [920, 920]), [3, 2_642, 50, 920, 4, 2_642, 51, 920]),
    (
        "F E 75400 110 20 0 D 24 2 2000 920 50 R 1000 1000",
        ranges([1_000, 4_000], [0, 100], [850, 950]),
        [1, 1_000, 0, 950, 6, 4_000, 100, 850],
    ),
    // On level terrain V × (1,000 + P) / 2H: 1,579.57 and 1,580.14.
    (LEVEL, ranges([2_768, 2_769], [50, 50], [920, 920]), [3, 2_768, 50, 920, 4, 2_769, 50, 920]),
    // V × (1,000 + P) / 8H: 1,776 is the last of C. With 1 or with 999 it is 1,777.78.
    (WIDE, ranges([14_208, 14_209], [0, 0], [1_000, 1_000]), [3, 14_208, 0, 1_000, 4, 14_209, 0, 1_000]),
    (WIDE, ranges([14_208, 14_208], [0, 1], [1_000, 1_000]), [3, 14_208, 0, 1_000, 4, 14_208, 1, 1_000]),
    (WIDE, ranges([14_208, 14_208], [0, 0], [999, 1_000]), [3, 14_208, 0, 1_000, 4, 14_208, 0, 999]),
    // V × (1,000 + P) / 2H: 1,080 is the last of B, 2,200 the last of E. With 1 or with 999 they are 1,081.08 and 2,202.2.
    (MULTILANE, ranges([2_160, 2_161], [0, 0], [1_000, 1_000]), [2, 2_160, 0, 1_000, 3, 2_161, 0, 1_000]),
    (MULTILANE, ranges([2_160, 2_160], [0, 1], [1_000, 1_000]), [2, 2_160, 0, 1_000, 3, 2_160, 1, 1_000]),
    (MULTILANE, ranges([4_400, 4_400], [0, 0], [999, 1_000]), [5, 4_400, 0, 1_000, 6, 4_400, 0, 999]),
    // In snow b = 93,150, c = 216,000 and S = 71,250 − 23,250 × ((100v − b) / (c − b))².
    //   1,647: S = 63,363.36, 259.93; 1,648: S = 63,341.30, 260.18. 1,500 × 1.1 is 1,650. 2,161 is above capacity.
    (SNOW, ranges([3_294, 3_295], [0, 0], [1_000, 1_000]), [3, 3_294, 0, 1_000, 4, 3_295, 0, 1_000]),
    (SNOW, ranges([3_000, 3_000], [0, 100], [1_000, 1_000]), [3, 3_000, 0, 1_000, 4, 3_000, 100, 1_000]),
    (SNOW, ranges([4_320, 4_320], [0, 0], [999, 1_000]), [5, 4_320, 0, 1_000, 6, 4_320, 0, 999]),
];

// Ranges that nothing refuses.
const FIT: Ranges = ranges([1_000, 4_000], [0, 100], [850, 950]);

const FARTHEST: u64 = u64::MAX;
const TO_FARTHEST: Ends = [0, FARTHEST];
const AT_FARTHEST: Ends = [FARTHEST, FARTHEST];
// SAFE-1: added to a number, these are lost where it is cut to 16 or 32 bits, or are its sign.
const PAST_16: u64 = 1 << 16;
const PAST_32: u64 = 1 << 32;
const SIGN: u64 = 1 << 63;

// FORECAST-4, REFUSAL-7 to REFUSAL-9, REFUSAL-22: refused ranges and their number, on a road that none of 1 to 6 refuses.
const REFUSED_RANGES: &[(Ranges, i32)] = &[
    // One of the three by one, and by much; all three.
    (ranges([2_643, 2_642], [50, 50], [920, 920]), 22),
    (ranges([2_642, 2_642], [51, 50], [920, 920]), 22),
    (ranges([2_642, 2_642], [50, 50], [920, 919]), 22),
    (ranges([999_999, 0], [0, 100], [850, 950]), 22),
    (ranges([100_000, 99_999], [0, 100], [850, 950]), 22),
    (ranges([1_000, 4_000], [1_000, 0], [850, 950]), 22),
    (ranges([1_000, 4_000], [0, 100], [1_000, 250]), 22),
    (ranges([1, 0], [1, 0], [251, 250]), 22),
    (ranges([FARTHEST, 4_000], [0, 100], [850, 950]), 22),
    (ranges([1_000, 4_000], [FARTHEST, 100], [850, 950]), 22),
    (ranges([1_000, 4_000], [0, 100], [FARTHEST, 950]), 22),
    // In order once cut, or with a sign.
    (ranges([PAST_32 + 1_000, 4_000], [0, 100], [850, 950]), 22),
    (ranges([1_000, 4_000], [PAST_32, 100], [850, 950]), 22),
    (ranges([1_000, 4_000], [0, 100], [PAST_16 + 850, 950]), 22),
    (ranges([SIGN, 4_000], [0, 100], [850, 950]), 22),
    // 22 is before 7: the same range, with one end or with both too large; another range.
    (ranges([1_000_000, 999_999], [0, 100], [850, 950]), 22),
    (ranges([1_000_001, 1_000_000], [0, 100], [850, 950]), 22),
    (ranges([FARTHEST, FARTHEST - 1], [0, 100], [850, 950]), 22),
    (ranges([0, 1_000_000], [51, 50], [920, 920]), 22),
    (ranges(AT_FARTHEST, [50, 50], [921, 920]), 22),
    // Before 8.
    (ranges([1_000, 4_000], [0, 100], [1_001, 1_000]), 22),
    (ranges([1_000, 4_000], [0, 100], [1_002, 1_001]), 22),
    (ranges([1_000, 4_000], [0, 100], [250, 249]), 22),
    (ranges([1_000, 4_000], [0, 100], [1, 0]), 22),
    (ranges([2_643, 2_642], [50, 50], [900, 1_001]), 22),
    (ranges([2_642, 2_642], [51, 50], [249, 1_000]), 22),
    // Before 9.
    (ranges([1_000, 4_000], [1_001, 1_000], [850, 950]), 22),
    (ranges([1_000, 4_000], [1_002, 1_001], [850, 950]), 22),
    (ranges([2_643, 2_642], [0, 1_001], [920, 920]), 22),
    (ranges([2_642, 2_642], [0, 1_001], [921, 920]), 22),
    // One end too large, and both.
    (ranges([1_000, 1_000_000], [0, 100], [850, 950]), 7),
    (ranges([999_999, 1_000_000], [0, 100], [850, 950]), 7),
    (ranges([1_000_000, 1_000_000], [0, 100], [850, 950]), 7),
    (ranges([PAST_32 + 1_000, PAST_32 + 4_000], [0, 100], [850, 950]), 7),
    (ranges([1_000, PAST_32 + 4_000], [0, 100], [850, 950]), 7),
    (ranges([1_000, SIGN], [0, 100], [850, 950]), 7),
    (ranges(TO_FARTHEST, [0, 100], [850, 950]), 7),
    (ranges(AT_FARTHEST, [0, 100], [850, 950]), 7),
    (ranges(TO_FARTHEST, TO_FARTHEST, TO_FARTHEST), 7),
    (ranges(AT_FARTHEST, AT_FARTHEST, AT_FARTHEST), 7),
    // 7 is before 8, whichever ends they meet: the best combination alone would have 8 in the first. Before 9, and before both.
    (ranges([0, 1_000_000], [50, 50], [900, 1_001]), 7),
    (ranges([0, 1_000_000], [50, 50], [249, 1_000]), 7),
    (ranges([1_000_000, 1_000_000], [50, 50], [249, 1_001]), 7),
    (ranges([0, 1_000_000], [0, 1_001], [920, 920]), 7),
    (ranges([0, 1_000_000], [1_001, 1_001], [920, 920]), 7),
    (ranges([0, 1_000_000], [1_001, 1_001], [0, 0]), 7),
    // One end out of range, and both.
    (ranges([0, 999_999], [0, 1_000], [249, 1_000]), 8),
    (ranges([0, 999_999], [0, 1_000], [250, 1_001]), 8),
    (ranges([100_000, 100_000], [50, 50], [249, 1_001]), 8),
    (ranges([0, 100_000], [1_001, 1_001], [0, 0]), 8),
    (ranges([1_000, 4_000], [0, 100], [900, 1_001]), 8),
    (ranges([1_000, 4_000], [0, 100], [249, 1_001]), 8),
    (ranges([1_000, 4_000], [0, 100], [249, 249]), 8),
    (ranges([1_000, 4_000], [0, 100], [1_001, 1_001]), 8),
    (ranges([0, 0], [0, 0], [0, 0]), 8),
    (ranges([1_000, 4_000], [0, 100], [850, PAST_32 + 950]), 8),
    (ranges([1_000, 4_000], [0, 100], [PAST_32 + 850, PAST_32 + 950]), 8),
    (ranges([1_000, 4_000], [0, 100], [PAST_16 + 850, PAST_16 + 950]), 8),
    (ranges([1_000, 4_000], [0, 100], [850, FARTHEST]), 8),
    (ranges([1_000, 4_000], [0, 100], TO_FARTHEST), 8),
    (ranges([1_000, 4_000], [0, 100], AT_FARTHEST), 8),
    // 8 is before 9, whichever ends they meet: the worst combination alone would have 9 in the first, the best alone nothing in the second.
    (ranges([1_000, 4_000], [0, 1_001], [900, 1_001]), 8),
    (ranges([1_000, 4_000], [0, 1_001], [249, 1_000]), 8),
    (ranges([1_000, 4_000], [1_001, 1_001], [900, 1_001]), 8),
    (ranges([1_000, 4_000], [1_001, 1_001], [249, 1_000]), 8),
    (ranges([1_000, 4_000], AT_FARTHEST, AT_FARTHEST), 8),
    // One end too large, and both.
    (ranges([0, 999_999], [0, 1_001], [250, 1_000]), 9),
    (ranges([0, 100_000], [0, 1_001], [920, 920]), 9),
    (ranges([0, 100_000], [1_001, 1_001], [920, 920]), 9),
    (ranges([1_000, 4_000], [1_000, 1_001], [850, 950]), 9),
    (ranges([1_000, 4_000], [1_001, 1_001], [850, 950]), 9),
    (ranges([1_000, 4_000], [0, PAST_32 + 100], [850, 950]), 9),
    (ranges([1_000, 4_000], [PAST_32, PAST_32 + 100], [850, 950]), 9),
    (ranges([1_000, 4_000], [PAST_16, PAST_16 + 100], [850, 950]), 9),
    (ranges([0, 0], TO_FARTHEST, [1_000, 1_000]), 9),
    (ranges([0, 0], AT_FARTHEST, [1_000, 1_000]), 9),
];

// FORECAST-4: roads that two of 1 to 6 refuse, or 6, 19 and 10, or 6 alone, and the first of the numbers.
const REFUSED_ROADS: &[(&str, i32)] = &[
    ("F G 29999 99 60 60 D 0 2 0 1000 0 L", 1),
    ("F G 75000 99 401 60 D 0 2 0 1000 0 L", 2),
    ("F G 75000 120 401 60 U 0 2 0 1000 0 L", 3),
    ("F G 75000 120 60 401 T 0 2 0 1000 0 L", 3),
    ("F G 75000 120 60 60 U 49 2 0 1000 0 L", 4),
    ("F G 75000 120 60 60 D 49 9 0 1000 0 L", 5),
    ("M G 60000 120 60 60 D 201 4 0 1000 0 L", 5),
    ("F G 54999 120 60 60 D 0 1 0 1000 0 L 499 1000", 6),
    ("M G 60000 120 60 60 U 0 4 0 1000 0 L", 6),
];

// FORECAST-4: roads that none of 1 to 6 refuses: what is after 9.
const REFUSED_AFTER_THE_LOAD: &[(&str, i32)] = &[
    // 19 is before 10.
    ("F G 54999 120 60 60 D 0 2 0 1000 0 L 1000 499", 19),
    ("M G 44999 120 60 60 D 0 2 0 1000 0 L 1000 999", 19),
    ("F G 75000 120 60 60 D 0 2 0 1000 0 L 1001 1000", 19),
    ("F G 54999 120 60 60 D 0 2 0 1000 0 L", 10),
    ("F G 75000 120 60 60 D 0 2 0 249 1001 L 666 1000", 10),
    ("M G 44999 120 60 60 D 0 2 0 1000 0 L", 10),
];

// REFUSAL-15: the line's own factor and share have to be well formed, though they are not used.
const MALFORMED_LOADS: [&str; 6] = [
    "F E 75400 110 20 0 D 24 2 2000  50 R",
    "F E 75400 110 20 0 D 24 2 2000 0920 50 R",
    "F E 75400 110 20 0 D 24 2 2000 100000 50 R",
    "F E 75400 110 20 0 D 24 2 2000 920  R",
    "F E 75400 110 20 0 D 24 2 2000 920 050 R",
    "F E 75400 110 20 0 D 24 2 2000 920 100000 R",
];

// What must come up in a run of 100,000: results of refused calls, letters, high ends of demand of six digits, and counts of combinations.
const OUTCOMES: [&str; 32] = [
    "-15", "-17", "-1", "-2", "-3", "-4", "-5", "-6", "-22", "-7", "-8", "-9", "-19", "-10", "best A", "best B", "best C", "best D",
    "best E", "best F", "worst A", "worst B", "worst C", "worst D", "worst E", "worst F", ONE, FEW_SAME, FEW_APART, MANY_SAME, MANY_APART,
    SIX_DIGITS,
];
// How many combinations there are, few where the second implementation tries each, and whether best and worst letter are apart.
const ONE: &str = "one combination";
const FEW_SAME: &str = "few combinations, one letter";
const FEW_APART: &str = "few combinations, letters apart";
const MANY_SAME: &str = "many combinations, one letter";
const MANY_APART: &str = "many combinations, letters apart";
const LEAST_OF_EACH: u64 = 500;

// At how many combinations within the ends a random call is compared with single answers.
const SAMPLES: u64 = 3;

// What 7 to 9 let pass.
const LIMITS: Ranges = ranges([0, GREATEST_DEMAND], [0, 1_000], [250, 1_000]);

// How far the larger ranges reach to either side: up to 337,881 combinations.
const LARGER: [u64; 3] = [100, 20, 20];

// A call, with the buffer as it is before.
struct Call {
    line: Vec<u8>,
    ranges: Ranges,
    buffer: Lent,
}

impl Call {
    fn by_engine(&self) -> After {
        self.buffer.after(|figures| engine::forecast(&self.line, &self.ranges, figures))
    }

    fn by_second(&self, method: &Method) -> After {
        self.buffer.after(|figures| forecast::forecast(method, &self.line, &self.ranges, figures))
    }

    fn name(&self) -> String {
        let (line, length) = (String::from_utf8_lossy(&self.line), self.buffer.length());
        let Ranges { demand, share, factor } = self.ranges;
        format!("{line:?}, demand {demand:?}, share {share:?}, factor {factor:?}, buffer of {length}")
    }
}

// The letters and their combinations in the buffer of a call that is answered, the best and the worst.
fn shown(after: &After) -> [(u64, Combination); 2] {
    let lent = after.lent();
    [0, 4].map(|at| (lent[at], Combination { demand: lent[at + 1], share: lent[at + 2], factor: lent[at + 3] }))
}

// The engine's own single answer to a case with a combination: its letter, or what it answers in its place.
fn single_letter(case: &Case, combination: &Combination) -> Result<u64, String> {
    ask(&combination.of(case)).map(|answer| u64::from(answer.letter))
}

// A range about a value that reaches up to so far to either side, not past limits that the value is within.
fn draw_ends(draw: &mut Draw, value: u64, reach: u64, [least, most]: Ends) -> Ends {
    let below = draw.from(0, reach).min(value.saturating_sub(least));
    let above = draw.from(0, reach).min(most.saturating_sub(value));
    [value - below, value + above]
}

// Ranges about the load of a case.
fn draw_ranges_about(draw: &mut Draw, case: &Case, [demand, share, factor]: [u64; 3]) -> Ranges {
    Ranges {
        demand: draw_ends(draw, case.demand, demand, LIMITS.demand),
        share: draw_ends(draw, case.share, share, LIMITS.share),
        factor: draw_ends(draw, case.factor, factor, LIMITS.factor),
    }
}

// How far ranges reach to either side: nowhere, so far that all combinations can be tried, some way, or to the limits.
fn draw_reach(draw: &mut Draw) -> [u64; 3] {
    match draw.from(0, 7) {
        0 => [0; 3],
        1..=4 => [(); 3].map(|_| draw.one_of(&[0, 0, 1, 2, 8])),
        5 | 6 => [draw.from(0, 500), draw.from(0, 100), draw.from(0, 100)],
        _ => [GREATEST_DEMAND, 1_000, 1_000],
    }
}

fn any_range<'a>(draw: &mut Draw, ranges: &'a mut Ranges) -> &'a mut Ends {
    match draw.from(0, 2) {
        0 => &mut ranges.demand,
        1 => &mut ranges.share,
        _ => &mut ranges.factor,
    }
}

// Puts a low end above its high end, by one or by more, where there is room.
fn reverse(draw: &mut Draw, ranges: &mut Ranges) {
    let [low, high] = any_range(draw, ranges);
    let more = draw.one_of(&[1, 2, 100, FARTHEST]);
    if draw.once_in(2) {
        *low = high.saturating_add(more);
    } else {
        *high = low.saturating_sub(more);
    }
}

// Puts some ends at or past a limit that 7 to 9 guard, by one or by much, and some where a narrower number would be in range.
fn move_ends_past_limits(draw: &mut Draw, ranges: &mut Ranges) {
    for _ in 0..draw.from(1, 3) {
        match draw.from(0, 7) {
            0 | 1 => ranges.demand[1] = draw.one_of(&[99_999, 100_000, GREATEST_DEMAND, GREATEST_DEMAND + 1, FARTHEST]),
            2 => ranges.share[1] = draw.one_of(&[1_000, 1_001, 1_002, FARTHEST]),
            3 => ranges.factor[1] = draw.one_of(&[1_000, 1_001, 1_002, FARTHEST]),
            4 => ranges.factor[0] = draw.one_of(&[0, 249, 250]),
            5 => any_range(draw, ranges)[1] |= draw.one_of(&[PAST_16, PAST_32, SIGN]),
            6 => *any_range(draw, ranges) = [draw.one_of(&[0, 249, 1_001, GREATEST_DEMAND + 1, FARTHEST]); 2],
            _ => any_range(draw, ranges)[0] = draw.bits() >> draw.from(0, 63),
        }
    }
}

fn draw_ranges(draw: &mut Draw, case: &Case) -> Ranges {
    let reach = draw_reach(draw);
    let mut ranges = draw_ranges_about(draw, case, reach);
    if draw.once_in(4) {
        move_ends_past_limits(draw, &mut ranges);
    }
    if draw.once_in(8) {
        reverse(draw, &mut ranges);
    }
    ranges
}

// A load that a line can hold, which 8 or 9 may refuse.
fn draw_load(draw: &mut Draw) -> Combination {
    Combination {
        demand: draw.from(0, GREATEST_DEMAND),
        share: draw.one_of(&[0, 50, 1_000, 1_001, 99_999]),
        factor: draw.one_of(&[0, 249, 250, 920, 1_000, 1_001, 99_999]),
    }
}

// Ranges about the load of a random case, and a line of the case, one time in eight past limits, two in three with another load of its own.
fn draw_call(draw: &mut Draw, method: &Method) -> Call {
    let mut case = draw_case(draw, method);
    let ranges = draw_ranges(draw, &case);
    if draw.once_in(8) {
        move_past_limits(draw, &mut case);
    }
    if !draw.once_in(3) {
        case = draw_load(draw).of(&case);
    }
    let (line, length) = (draw_line_of(draw, &case), draw_length(draw, FIGURES));
    Call { line, ranges, buffer: Lent::draw(draw, length) }
}

// A call that is answered.
fn draw_larger_call(draw: &mut Draw, method: &Method) -> Call {
    let case = draw_accepted_case(draw, method);
    Call { line: line_of(&case), ranges: draw_ranges_about(draw, &case, LARGER), buffer: Lent::draw(draw, FIGURES) }
}

// A value at or beside an end, or any within.
fn draw_within(draw: &mut Draw, [low, high]: Ends) -> u64 {
    match draw.from(0, 5) {
        0 => low,
        1 => high,
        2 => (low + 1).min(high),
        3 => high.saturating_sub(1).max(low),
        _ => draw.from(low, high),
    }
}

fn draw_combination(draw: &mut Draw, ranges: &Ranges) -> Combination {
    Combination {
        demand: draw_within(draw, ranges.demand),
        share: draw_within(draw, ranges.share),
        factor: draw_within(draw, ranges.factor),
    }
}

pub struct Forecasts<'a> {
    pub method: &'a Method,
    pub draw: Draw,
    pub tally: Tally,
    pub outcomes: Outcomes,
}

impl Forecasts<'_> {
    fn same(&mut self, call: &Call, whose: &str, left: &After, right: &After) {
        left.same(right, &mut self.tally, || format!("forecast, {}: {whose}", call.name()));
    }

    fn figure(&mut self, line: &str, ranges: &Ranges, length: usize, result: i32, written: &[u64]) {
        let line = line.replace(' ', "\t").into_bytes();
        let call = Call { line, ranges: *ranges, buffer: Lent::draw(&mut self.draw, length) };
        let expected = call.buffer.by_figures(result, written);
        self.same(&call, "engine and figures", &call.by_engine(), &expected);
        self.same(&call, "second and figures", &call.by_second(self.method), &expected);
    }

    // A line with ranges that nothing refuses, and with each of the refused ones.
    fn refused_line(&mut self, line: &str, length: usize, number: i32) {
        self.figure(line, &FIT, length, -number, &[]);
        for (ranges, _) in REFUSED_RANGES {
            self.figure(line, ranges, length, -number, &[]);
        }
    }

    // Ranges on roads that nothing refuses, and on those that 19 and 10 refuse.
    fn refused_ranges(&mut self, ranges: &Ranges, length: usize, number: i32) {
        for line in [LINE, MULTILANE, SNOW].iter().chain(REFUSED_AFTER_THE_LOAD.iter().map(|(line, _)| line)) {
            self.figure(line, ranges, length, -number, &[]);
        }
    }

    fn figures_with_room(&mut self, length: usize) {
        for &(line, ranges, figures) in FORECASTS {
            self.figure(line, &ranges, length, FIGURES as i32, &figures);
        }
        for line in [MALFORMED].iter().chain(&MALFORMED_LINES).chain(&MALFORMED_LOADS) {
            self.refused_line(line, length, 15);
        }
        for &(line, number) in REFUSED_ROADS {
            self.refused_line(line, length, number);
        }
        for &(ranges, number) in REFUSED_RANGES {
            self.refused_ranges(&ranges, length, number);
        }
        for &(line, number) in REFUSED_AFTER_THE_LOAD {
            self.figure(line, &FIT, length, -number, &[]);
        }
    }

    pub fn figures(&mut self) {
        for length in [FIGURES, FIGURES + 1, 25] {
            self.figures_with_room(length);
        }
        for length in [0, 1, FIGURES - 1] {
            for line in [LINE, MALFORMED, REFUSED_ROADS[0].0] {
                self.refused_line(line, length, 17);
            }
        }
    }

    // FORECAST-3, FORECAST-5: the engine's own single answers to a line's case are the letters at the two combinations shown. Within the ends they
    // lie between, and are those of the second implementation.
    fn single_answers(&mut self, call: &Call, theirs: &After) {
        let case = lines::parse(&call.line).expect("the call is answered");
        let forecast = Forecast::new(self.method, &call.line, &call.ranges).ok().expect("the call is answered");
        let [best, worst] = shown(theirs);
        for (letter, combination) in [best, worst] {
            let single = single_letter(&case, &combination);
            self.tally.check(single == Ok(letter), || {
                format!("forecast, {}: letter {letter} at {combination:?}, the single call answers {single:?}", call.name())
            });
        }
        for _ in 0..SAMPLES {
            let combination = draw_combination(&mut self.draw, &call.ranges);
            let (single, second) = (single_letter(&case, &combination), u64::from(forecast.letter(&combination)));
            self.tally.check(single == Ok(second) && (best.0..=worst.0).contains(&second), || {
                let letters = format!("{} to {}", best.0, worst.0);
                format!("forecast, {}: {letters}, at {combination:?} the single call answers {single:?}, second {second}", call.name())
            });
        }
    }

    fn answered(&mut self, call: &Call, ours: &After) {
        let [best, worst] = shown(ours).map(|(letter, _)| lines::letter_name(letter as u32));
        self.outcomes.seen(format!("best {best}"));
        self.outcomes.seen(format!("worst {worst}"));
        if has_six_digits(call.ranges.demand[1]) {
            self.outcomes.seen(SIX_DIGITS.to_string());
        }
        let counted = match (call.ranges.count(), best == worst) {
            (1, _) => ONE,
            (2..=MOST_TRIED, true) => FEW_SAME,
            (2..=MOST_TRIED, false) => FEW_APART,
            (_, true) => MANY_SAME,
            (_, false) => MANY_APART,
        };
        self.outcomes.seen(counted.to_string());
    }

    pub fn random(&mut self, count: u64) {
        for _ in 0..count {
            let call = draw_call(&mut self.draw, self.method);
            let (theirs, ours) = (call.by_engine(), call.by_second(self.method));
            self.same(&call, "engine and second", &theirs, &ours);
            if ours.result < 0 {
                self.outcomes.seen(ours.result.to_string());
            } else {
                self.single_answers(&call, &theirs);
                self.answered(&call, &ours);
            }
        }
    }

    // FORECAST-1, FORECAST-2: letters of larger ranges by every combination.
    pub fn larger(&mut self, count: u64) {
        for _ in 0..count {
            let call = draw_larger_call(&mut self.draw, self.method);
            let (theirs, ours) = (call.by_engine(), call.by_second(self.method));
            self.same(&call, "engine and second", &theirs, &ours);
            let forecast = Forecast::new(self.method, &call.line, &call.ranges).ok().expect("the call is answered");
            let tried = forecast.letters_by_every_combination().map(u64::from);
            self.tally.equal(shown(&theirs).map(|(letter, _)| letter), tried, || format!("forecast by every combination, {}", call.name()));
        }
    }

    pub fn coverage(&mut self) {
        self.outcomes.cover(&mut self.tally, &OUTCOMES, LEAST_OF_EACH);
    }
}
