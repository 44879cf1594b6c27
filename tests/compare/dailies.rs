// CALL-8: daily volumes, some calls with their figures, and random lines with random daily traffics, shares and buffers of random
// length and content. What the engine hands back for a random call is also compared with its own single answer to the hourly demand, and
// the second implementation judges each of its daily service volumes d: d meets the letter and d + 1 does not. Some are counted.

use super::days::{
    single, AT_0, AT_100000, AT_2000, AT_2643, AT_99999, AT_999999, LINE, MALFORMED, MALFORMED_LINES, SIX_DIGITS, SNOW_AT_3000,
};
use super::draw::{accepted, draw_accepted_case, draw_case, draw_demand, draw_line, has_six_digits, line_of, move_past_limits, Draw};
use super::engine;
use super::lent::{draw_length, After, Lent};
use super::tally::{Outcomes, Tally};
use crate::second::daily::{self, hourly_demand, Section, FIGURES, GREATEST_DAILY_TRAFFIC};
use crate::second::day::POSITION;
use crate::second::lines;
use crate::second::method::{Case, Curve, Method, GREATEST_DEMAND};

// The peak-hour share K and the direction share D.
type Shares = [u32; 2];
const URBAN: Shares = [90, 550];
const RURAL: Shares = [110, 550];
// With these the hourly demand is the daily traffic.
const WHOLE: Shares = [1_000, 1_000];

// More answers for the line of the days, as a position of a day has them. Flow rates are V × 1.1 / (0.92 × 2) rounded up.
//   1: 0.598. 10: 5.98; 60,000 / 60,782 = 0.99.
//   2,642: 1,579.46; w = ((158,000 − 156,872) / 73,910)² = 0.0002329; S = 60,782 − 9,497.1w = 60,779.79; 15,800,000 / S = 259.95.
//   3,858: 2,306.41; w = ((230,700 − 156,872) / 73,910)² = 0.9977823; S = 51,305.95; 23,070,000 / S = 449.66.
//   3,859: 2,307.01, so v = 2,308 is above capacity. 996,000: 595,434.78.
const AT_1: [u64; POSITION] = [0, 1, 60_782, 230_782, 1, 60_782, 1, 1_117, 1_829, 2_642, 3_360, 3_858];
const AT_10: [u64; POSITION] = [0, 1, 60_782, 230_782, 6, 60_782, 1, 1_117, 1_829, 2_642, 3_360, 3_858];
const AT_2642: [u64; POSITION] = [0, 3, 60_782, 230_782, 1_580, 60_779, 260, 1_117, 1_829, 2_642, 3_360, 3_858];
const AT_3858: [u64; POSITION] = [0, 5, 60_782, 230_782, 2_307, 51_305, 450, 1_117, 1_829, 2_642, 3_360, 3_858];
const AT_3859: [u64; POSITION] = [0, 6, 60_782, 230_782, 2_308, 0, 0, 1_117, 1_829, 2_642, 3_360, 3_858];
const AT_996000: [u64; POSITION] = [0, 6, 60_782, 230_782, 595_435, 0, 0, 1_117, 1_829, 2_642, 3_360, 3_858];

// DAILY-2: its daily service volumes on an urban road. A daily traffic is 0.0495 of itself an hour: 22,565 is 1,116.97 and 22,566 is 1,117.02;
// 36,949 is 1,828.98 and 36,950 is 1,829.03; 53,373 is 2,641.96 and 53,374 is 2,642.01; 67,878 is 3,359.96 and 67,879 is 3,360.01;
// 77,939 is 3,857.98 and 77,940 is 3,858.03.
const ON_URBAN_ROADS: [u64; 5] = [22_565, 36_949, 53_373, 67_878, 77_939];
const HOURLY: [u64; 5] = [1_117, 1_829, 2_642, 3_360, 3_858];
// With K = 1 and D = 249 a vehicle an hour stands for 4,016.06 a day.
const BY_ONE_AND_249: [u64; 5] = [4_485_943, 7_345_381, 10_610_441, 13_493_975, 15_493_975];

// A given speed of 75,000 with eight lanes, H = 1,000 and P = 0: v is V / 8 rounded up, b = 100,000 and c = 240,000. The last flow rates of
// the letters are 825, 1,328, 1,776, 2,130 and 2,400, with S = 75,000 − 21,666.67 × ((v − 1,000) / 1,400)².
//   4,000: v = 500; 5,000,000 / 75,000 = 66.67.
//   14,208: v = 1,776; S = 68,343.29; 17,760,000 / S = 259.86. 14,209: v = 1,777; S = 68,326.13; 17,770,000 / S = 260.08.
//   16,000: v = 2,000; S = 63,945.58; 20,000,000 / S = 312.77.
pub const WIDE: &str = "F G 75000 120 60 60 D 0 8 0 1000 0 L";
const WIDE_AT_4000: [u64; POSITION] = [0, 1, 75_000, 240_000, 500, 75_000, 67, 6_600, 10_624, 14_208, 17_040, 19_200];
const WIDE_AT_14208: [u64; POSITION] = [0, 3, 75_000, 240_000, 1_776, 68_343, 260, 6_600, 10_624, 14_208, 17_040, 19_200];
const WIDE_AT_14209: [u64; POSITION] = [0, 4, 75_000, 240_000, 1_777, 68_326, 261, 6_600, 10_624, 14_208, 17_040, 19_200];
const WIDE_AT_16000: [u64; POSITION] = [0, 4, 75_000, 240_000, 2_000, 63_945, 313, 6_600, 10_624, 14_208, 17_040, 19_200];

// With K = D = 2 a vehicle an hour stands for 250,000 a day: 17,040 and 19,200 an hour would be 4,260,000,000 and 4,800,000,000 a day. With
// K = D = 1 the 6,600 of A would already be 6,600,000,000.
const WIDE_BY_TWOS: [u64; 5] = [1_650_000_000, 2_656_000_000, 3_552_000_000, 4_000_000_000, 4_000_000_000];
const WIDE_BY_ONES: [u64; 5] = [4_000_000_000; 5];

// A multilane highway with two lanes; c = 220,000. Its last flow rates are 660, 1,080, 1,532, 1,893 and 2,200. At 0.09 an
// hour 24,000 a day is 2,160 exactly: v = 1,080, density 180. 24,001 is 2,160.09: v = 1,081, density 180.17.
pub const MULTILANE: &str = "M G 60000 120 60 60 D 0 2 0 1000 0 L";
const MULTILANE_AT_2160: [u64; POSITION] = [0, 2, 60_000, 220_000, 1_080, 60_000, 180, 1_320, 2_160, 3_064, 3_786, 4_400];
const MULTILANE_AT_2161: [u64; POSITION] = [0, 3, 60_000, 220_000, 1_081, 60_000, 181, 1_320, 2_160, 3_064, 3_786, 4_400];
const MULTILANE_AT_3600: [u64; POSITION] = [0, 4, 60_000, 220_000, 1_800, 55_518, 325, 1_320, 2_160, 3_064, 3_786, 4_400];
const MULTILANE_VOLUMES: [u64; 5] = [14_666, 24_000, 34_044, 42_066, 48_888];

// The service volumes of SNOW_AT_3000, 1,566, 2,506, 3,294, 3,884 and 4,320, at 0.0605 an hour: 25,884 is 1,565.98, 41,421 is 2,505.97,
// 54,446 is 3,293.98, 64,198 is 3,883.98 and 71,404 is 4,319.94, and one more is above each.
pub const SNOW: &str = "F G 75000 120 60 60 D 0 2 0 1000 0 L 950 900";
const SNOW_VOLUMES: [u64; 5] = [25_884, 41_421, 54_446, 64_198, 71_404];

// DAILY-1 to DAILY-3: lines, daily traffics, shares, the single answer to the hourly demand, and the daily service volumes. Blanks stand for tabs.
const DAILIES: &[(&str, u64, Shares, [u64; POSITION], [u64; 5])] = &[
    (LINE, 0, URBAN, AT_0, ON_URBAN_ROADS),
    (LINE, 1, URBAN, AT_1, ON_URBAN_ROADS),
    // DAILY-1: 0.594 an hour. Rounded twice, 12 × 0.09 would be 2, and 2 × 0.55 again 2.
    (LINE, 12, URBAN, AT_1, ON_URBAN_ROADS),
    // 9.999 an hour. Rounded twice it would be 11, whichever share comes first: 19 × 0.55 = 10.45, 112 × 0.09 = 10.08.
    (LINE, 202, URBAN, AT_10, ON_URBAN_ROADS),
    (LINE, 202, [550, 90], AT_10, ON_URBAN_ROADS),
    (LINE, 53_373, URBAN, AT_2642, ON_URBAN_ROADS),
    (LINE, 53_374, URBAN, AT_2643, ON_URBAN_ROADS),
    (LINE, 77_939, URBAN, AT_3858, ON_URBAN_ROADS),
    (LINE, 77_940, URBAN, AT_3859, ON_URBAN_ROADS),
    (LINE, 2_000, WHOLE, AT_2000, HOURLY),
    (LINE, 2_643, WHOLE, AT_2643, HOURLY),
    (LINE, 99_999, WHOLE, AT_99999, HOURLY),
    (LINE, 100_000, WHOLE, AT_100000, HOURLY),
    (LINE, 999_999, WHOLE, AT_999999, HOURLY),
    // 99,999.999 and 999,999 an hour, and 996,000 of the greatest daily traffic.
    (LINE, 2_020_202, URBAN, AT_100000, ON_URBAN_ROADS),
    (LINE, 20_202_000, URBAN, AT_999999, ON_URBAN_ROADS),
    (LINE, 4_000_000_000, [1, 249], AT_996000, BY_ONE_AND_249),
    // The line's own demand is not used. Clear weather is written out.
    ("F E 75400 110 20 0 D 24 2 0 920 50 R", 53_373, URBAN, AT_2642, ON_URBAN_ROADS),
    ("F E 75400 110 20 0 D 24 2 54321 920 50 R", 53_374, URBAN, AT_2643, ON_URBAN_ROADS),
    ("F E 75400 110 20 0 D 24 2 2000 920 50 R 1000 1000", 0, URBAN, AT_0, ON_URBAN_ROADS),
    (WIDE, 4_000_000_000, [2, 2], WIDE_AT_16000, WIDE_BY_TWOS),
    (WIDE, 3_552_000_000, [2, 2], WIDE_AT_14208, WIDE_BY_TWOS),
    (WIDE, 3_552_000_001, [2, 2], WIDE_AT_14209, WIDE_BY_TWOS),
    (WIDE, 4_000_000_000, [1, 1], WIDE_AT_4000, WIDE_BY_ONES),
    (WIDE, 3_999_000_001, [1, 1], WIDE_AT_4000, WIDE_BY_ONES),
    (MULTILANE, 24_000, [90, 1_000], MULTILANE_AT_2160, MULTILANE_VOLUMES),
    (MULTILANE, 24_001, [1_000, 90], MULTILANE_AT_2161, MULTILANE_VOLUMES),
    (MULTILANE, 40_000, [90, 1_000], MULTILANE_AT_3600, MULTILANE_VOLUMES),
    // 2,999.95 an hour.
    (SNOW, 49_586, RURAL, SNOW_AT_3000, SNOW_VOLUMES),
];

// A road that 1 refuses.
const SLOW: &str = "F G 29999 120 60 60 D 0 2 0 1000 0 L";
// Where H is 1 and P is 99,999: 8 and 9 refuse the case.
const HEAVY: &str = "F G 75000 120 60 60 D 0 2 0 1 99999 R";

// DAILY-6, REFUSAL-20, REFUSAL-21: refused calls: line, daily traffic, shares, length of the buffer, result.
const REFUSED: &[(&str, u64, Shares, usize, i32)] = &[
    (LINE, 5, URBAN, 0, -17),
    (LINE, 5, URBAN, 1, -17),
    (LINE, 5, URBAN, 15, -17),
    // REFUSAL-17, CALL-4: 17 is before 15, 20, 21 and 1.
    (MALFORMED, 5, URBAN, 15, -17),
    (LINE, 5, [0, 550], 15, -17),
    (LINE, 4_000_000_001, URBAN, 15, -17),
    (SLOW, 5, URBAN, 15, -17),
    // 15 is before 20 and 21.
    (MALFORMED, 5, URBAN, 16, -15),
    (MALFORMED, 5, [0, 550], 16, -15),
    (MALFORMED, 5, [90, 1_001], 33, -15),
    (MALFORMED, u64::MAX, URBAN, 16, -15),
    (LINE, 5, [0, 550], 16, -20),
    (LINE, 5, [1_001, 550], 16, -20),
    (LINE, 5, [90, 0], 16, -20),
    (LINE, 5, [90, 1_001], 16, -20),
    (LINE, 5, [u32::MAX, 550], 16, -20),
    (LINE, 5, [90, u32::MAX], 17, -20),
    (LINE, 0, [0, 0], 16, -20),
    (LINE, 0, [u32::MAX, u32::MAX], 33, -20),
    // 90 and 550 once cut to 16 bits; with a sign bit.
    (LINE, 5, [65_536 + 90, 550], 16, -20),
    (LINE, 5, [90, 65_536 + 550], 16, -20),
    (LINE, 5, [(1 << 31) + 90, (1 << 31) + 550], 16, -20),
    // 20 is before 21 and 1.
    (LINE, 5_000_000_000, [90, 1_001], 16, -20),
    (LINE, u64::MAX, [0, 550], 16, -20),
    (LINE, u64::MAX, [u32::MAX, u32::MAX], 16, -20),
    (SLOW, 5, [1_001, 550], 16, -20),
    (SLOW, 5_000_000_000, [90, 0], 16, -20),
    (LINE, 4_000_000_001, URBAN, 16, -21),
    (LINE, 4_000_000_001, [1, 1], 16, -21),
    (LINE, 4_000_000_001, WHOLE, 33, -21),
    (LINE, u64::MAX, URBAN, 16, -21),
    (LINE, u64::MAX, WHOLE, 17, -21),
    // 53,373 once cut to 32 bits; products past 64 bits.
    (LINE, (1 << 32) + 53_373, URBAN, 16, -21),
    (LINE, u64::MAX / 49_500 + 1, URBAN, 16, -21),
    (LINE, u64::MAX / 1_000_000 + 1, WHOLE, 16, -21),
    // 21 is before 1, 7 and 10.
    (SLOW, 4_000_000_001, URBAN, 16, -21),
    (HEAVY, 4_000_000_001, WHOLE, 16, -21),
    ("F G 54999 120 60 60 D 0 2 0 1000 0 L", 4_000_000_001, [1, 1], 16, -21),
    // Each of 1 to 6 before the next, with an hourly demand that 7 refuses and with one that it does not.
    ("F G 29999 99 60 60 D 0 2 0 1000 0 L", 4_000_000_000, WHOLE, 16, -1),
    ("F G 29999 99 60 60 D 0 2 0 1000 0 L", 5, URBAN, 16, -1),
    ("F G 75000 99 401 60 D 0 2 0 1000 0 L", 4_000_000_000, WHOLE, 16, -2),
    ("F G 75000 99 401 60 D 0 2 0 1000 0 L", 5, URBAN, 16, -2),
    ("F G 75000 120 401 60 U 0 2 0 1000 0 L", 4_000_000_000, WHOLE, 16, -3),
    ("F G 75000 120 60 401 U 0 2 0 1000 0 L", 5, URBAN, 16, -3),
    ("F G 75000 120 60 60 U 49 2 0 1000 0 L", 4_000_000_000, WHOLE, 16, -4),
    ("F G 75000 120 60 60 T 49 2 0 1000 0 L", 5, URBAN, 16, -4),
    ("F G 75000 120 60 60 D 49 9 0 1000 0 L", 4_000_000_000, WHOLE, 16, -5),
    ("M G 60000 120 60 60 D 201 4 0 1000 0 L", 5, URBAN, 16, -5),
    ("F G 75000 120 60 60 D 0 0 0 1000 0 L", 4_000_000_000, WHOLE, 16, -6),
    ("M G 60000 120 60 60 D 0 4 0 249 0 L", 5, URBAN, 16, -6),
    (LINE, 1_000_000, WHOLE, 16, -7),
    (LINE, 9_999_999, WHOLE, 33, -7),
    (LINE, 4_000_000_000, WHOLE, 16, -7),
    // 999,999.05 an hour, 1,000,000 and 198,000,000.
    (LINE, 20_202_001, URBAN, 16, -7),
    (LINE, 4_000_000_000, [1, 250], 16, -7),
    (LINE, 4_000_000_000, URBAN, 16, -7),
    // REFUSAL-7: before 8, 9, 19 and 10.
    (HEAVY, 4_000_000_000, WHOLE, 16, -7),
    ("F G 75000 120 60 60 D 0 2 0 1 0 L", 4_000_000_000, WHOLE, 16, -7),
    ("F G 75000 120 60 60 D 0 2 0 0 0 L", 1_000_000, WHOLE, 16, -7),
    ("F G 75000 120 60 60 D 0 2 0 1000 1001 L", 1_000_000, WHOLE, 16, -7),
    ("F G 75000 120 60 60 D 0 2 0 1000 0 L 499 1000", 1_000_000, WHOLE, 16, -7),
    ("F G 54999 120 60 60 D 0 2 0 1000 0 L", 1_000_000, WHOLE, 16, -7),
    // 100,000 to 999,999 an hour are not refused by 7, so that the road's own refusal is the first.
    (HEAVY, 100_000, WHOLE, 16, -8),
    (HEAVY, 999_999, WHOLE, 16, -8),
    ("F G 75000 120 60 60 D 0 2 0 1000 1001 L", 100_000, WHOLE, 16, -9),
    ("F G 75000 120 60 60 D 0 2 0 1000 1001 L", 999_999, WHOLE, 16, -9),
    ("F G 75000 120 60 60 D 0 2 0 1000 0 L 499 1000", 100_000, WHOLE, 16, -19),
    ("F G 75000 120 60 60 D 0 2 0 1000 0 L 499 1000", 999_999, WHOLE, 16, -19),
    ("F G 54999 120 60 60 D 0 2 0 1000 0 L", 100_000, WHOLE, 16, -10),
    ("F G 54999 120 60 60 D 0 2 0 1000 0 L", 999_999, WHOLE, 16, -10),
    // 8 before 9 before 19 before 10.
    (HEAVY, 5, URBAN, 16, -8),
    ("F G 75000 120 60 60 D 0 2 0 1001 1001 L", 0, URBAN, 16, -8),
    ("F G 75000 120 60 60 D 0 2 0 1000 1001 L 499 1000", 5, URBAN, 16, -9),
    ("F G 54999 120 60 60 D 0 2 0 1000 0 L 1000 499", 5, URBAN, 16, -19),
    ("M G 44999 120 60 60 D 0 2 0 1000 0 L 1000 999", 5, URBAN, 16, -19),
    ("F G 54999 120 60 60 D 0 2 0 1000 0 L", 5, URBAN, 16, -10),
    ("F G 75000 120 60 60 D 0 2 0 1000 0 L 666 1000", 0, [1, 1], 16, -10),
    ("M G 44999 120 60 60 D 0 2 0 1000 0 L", 4_000_000_000, [1, 1], 16, -10),
];

// What must come up in a run of 100,000: results of refused calls, letters, hourly demands of six digits, and daily service volumes at
// their upper end.
const OUTCOMES: [&str; 23] = [
    "-15", "-17", "-20", "-21", "-1", "-2", "-3", "-4", "-5", "-6", "-7", "-8", "-9", "-10", "-19", "A", "B", "C", "D", "E", "F",
    SIX_DIGITS, AT_THE_END,
];
const AT_THE_END: &str = "a volume of 4,000,000,000";
const LEAST_OF_EACH: u64 = 500;

// Refusals that come before those of the case.
const BEFORE_THE_CASE: [i32; 4] = [-17, -15, -20, -21];

// SAFE-1: daily traffics that a narrower number or a product may not hold, each with its neighbours.
const LARGE: [u64; 4] = [1 << 32, 1 << 63, u64::MAX / 1_000_000, u64::MAX - 1];

// Where daily volumes are counted, 7 refuses this daily traffic.
const MOST_COUNTED: u64 = 12_000_000;

// A call, with the buffer as it is before.
struct Call {
    line: Vec<u8>,
    daily_traffic: u64,
    shares: Shares,
    buffer: Lent,
}

impl Call {
    fn by_engine(&self) -> After {
        let [peak_share, direction_share] = self.shares;
        self.buffer.after(|figures| engine::daily(&self.line, self.daily_traffic, peak_share, direction_share, figures))
    }

    fn by_second(&self, method: &Method) -> After {
        let [peak_share, direction_share] = self.shares;
        self.buffer.after(|figures| daily::daily(method, &self.line, self.daily_traffic, peak_share, direction_share, figures))
    }

    fn name(&self) -> String {
        let (line, length) = (String::from_utf8_lossy(&self.line), self.buffer.length());
        format!("{line:?}, daily traffic {}, shares {:?}, buffer of {length}", self.daily_traffic, self.shares)
    }

    // For shares in range.
    fn hourly_demand(&self) -> u64 {
        let [peak_share, direction_share] = self.shares.map(u64::from);
        hourly_demand(self.daily_traffic, peak_share, direction_share)
    }

    // For a call that is answered.
    fn section<'a>(&self, method: &'a Method) -> Section<'a> {
        let [peak_share, direction_share] = self.shares.map(u64::from);
        let section = lines::parse(&self.line).and_then(|case| Section::new(method, &case, peak_share, direction_share).ok());
        section.expect("the case is accepted")
    }
}

// The single answer and the daily service volumes in the buffer of a call that is answered.
fn parts(after: &After) -> (&[u64], &[u64]) {
    after.lent()[..FIGURES].split_at(FIGURES - 5)
}

// The letter, or minus the refusal.
fn outcome(after: &After) -> String {
    if after.result < 0 {
        return after.result.to_string();
    }
    lines::letter_name(after.lent()[0] as u32).to_string()
}

// Typical, small and large shares, the ends, and some out of range.
fn draw_share(draw: &mut Draw) -> u32 {
    let share = match draw.from(0, 31) {
        0 => draw.one_of(&[0, 1_001, 1_002, 65_536 + 90, 1 << 31]),
        1 => draw.bits() >> draw.from(32, 63),
        2..=5 => draw.one_of(&[1, 2, 999, 1_000]),
        6..=13 => draw.one_of(&[90, 110, 550]),
        14..=18 => draw.from(1, 20),
        19..=24 => draw.from(500, 1_000),
        _ => draw.from(1, 1_000),
    };
    share as u32
}

// Each by itself; one time in eight both so small that the greatest daily traffic may meet letters.
fn draw_shares(draw: &mut Draw) -> Shares {
    if draw.once_in(8) {
        [draw.one_of(&[1, 1, 2]), draw.one_of(&[1, 1, 2])]
    } else {
        [draw_share(draw), draw_share(draw)]
    }
}

// A daily traffic at or beside the last that has this hourly demand, or at or beside the greatest.
fn draw_about(draw: &mut Draw, demand: u64, shares: Shares) -> u64 {
    let product: u64 = shares.iter().map(|&share| u64::from(share)).product();
    let last = (demand * 1_000_000 / product.max(1)).min(GREATEST_DAILY_TRAFFIC);
    (last + draw.from(0, 2)).saturating_sub(1)
}

// A daily traffic for a case, which comes with its curve if it is accepted.
fn draw_daily_traffic(draw: &mut Draw, method: &Method, accepted: &Option<(Case, Curve)>, shares: Shares) -> u64 {
    match (draw.from(0, 15), accepted) {
        (0, _) => draw.from(0, 2),
        (1, _) => GREATEST_DAILY_TRAFFIC - 2 + draw.from(0, 4),
        (2, _) => draw.one_of(&LARGE) - 1 + draw.from(0, 2),
        (3, _) => draw.bits() >> draw.from(0, 63),
        (4, _) => draw.from(0, GREATEST_DAILY_TRAFFIC),
        (5, _) => draw_about(draw, GREATEST_DEMAND, shares),
        (_, None) => {
            let demand = draw.from(0, 19_999);
            draw_about(draw, demand, shares)
        }
        (_, Some((case, curve))) => {
            let demand = draw_demand(draw, method, case, curve);
            draw_about(draw, demand, shares)
        }
    }
}

// A random line; one time in eight that of a case past limits, so that each refusal of a case comes up often.
fn draw_any_line(draw: &mut Draw, method: &Method) -> Vec<u8> {
    if !draw.once_in(8) {
        return draw_line(draw, method);
    }
    let mut case = draw_case(draw, method);
    move_past_limits(draw, &mut case);
    line_of(&case)
}

fn draw_call(draw: &mut Draw, method: &Method) -> Call {
    let line = draw_any_line(draw, method);
    let shares = draw_shares(draw);
    let daily_traffic = draw_daily_traffic(draw, method, &accepted(method, &line), shares);
    let length = draw_length(draw, FIGURES);
    Call { line, daily_traffic, shares, buffer: Lent::draw(draw, length) }
}

// Shares with which few daily traffics are to be counted.
fn draw_counted_shares(draw: &mut Draw) -> Shares {
    loop {
        let [peak_share, direction_share] = [draw.from(300, 1_000), draw.from(300, 1_000)];
        if hourly_demand(MOST_COUNTED, peak_share, direction_share) > GREATEST_DEMAND {
            return [peak_share as u32, direction_share as u32];
        }
    }
}

// A call that is answered: an hourly demand is at most its daily traffic.
fn draw_counted_call(draw: &mut Draw, method: &Method) -> Call {
    let line = line_of(&draw_accepted_case(draw, method));
    let (daily_traffic, shares) = (draw.from(0, GREATEST_DEMAND), draw_counted_shares(draw));
    Call { line, daily_traffic, shares, buffer: Lent::draw(draw, FIGURES) }
}

pub struct Dailies<'a> {
    pub method: &'a Method,
    pub draw: Draw,
    pub tally: Tally,
    pub outcomes: Outcomes,
}

impl Dailies<'_> {
    fn same(&mut self, call: &Call, whose: &str, left: &After, right: &After) {
        left.same(right, &mut self.tally, || format!("daily volumes, {}: {whose}", call.name()));
    }

    fn figure(&mut self, line: &str, daily_traffic: u64, shares: Shares, length: usize, result: i32, written: &[u64]) {
        let line = line.replace(' ', "\t").into_bytes();
        let call = Call { line, daily_traffic, shares, buffer: Lent::draw(&mut self.draw, length) };
        let expected = call.buffer.by_figures(result, written);
        self.same(&call, "engine and figures", &call.by_engine(), &expected);
        self.same(&call, "second and figures", &call.by_second(self.method), &expected);
    }

    pub fn figures(&mut self) {
        for &(line, daily_traffic, shares, answer, volumes) in DAILIES {
            let written = [&answer[1..], &volumes].concat();
            for more in [0, 1, 17] {
                self.figure(line, daily_traffic, shares, FIGURES + more, FIGURES as i32, &written);
            }
        }
        for &(line, daily_traffic, shares, length, result) in REFUSED {
            self.figure(line, daily_traffic, shares, length, result, &[]);
        }
        for line in MALFORMED_LINES {
            self.figure(line, 5, URBAN, FIGURES, -15, &[]);
        }
    }

    // DAILY-1, DAILY-3: the engine's own single answer to the hourly demand, or its refusal.
    fn single_answer(&mut self, call: &Call, theirs: &After) {
        let single = single(&call.line, call.hourly_demand());
        let same = match theirs.result {
            result if result < 0 => single[0] == u64::from(result.unsigned_abs()),
            _ => single[0] == 0 && single[1..] == *parts(theirs).0,
        };
        self.tally.check(same, || format!("daily volumes, {}: the single call answers {single:?}", call.name()));
    }

    // DAILY-2, DAILY-4: the engine's daily service volumes meet their letters, and one more does not.
    fn neighbours(&mut self, call: &Call, theirs: &After) {
        let section = call.section(self.method);
        for (letter, &volume) in (1..).zip(parts(theirs).1) {
            let greatest = volume == GREATEST_DAILY_TRAFFIC || volume < GREATEST_DAILY_TRAFFIC && !section.meets(volume + 1, letter);
            self.tally.check(greatest && section.meets(volume, letter), || {
                format!("daily volumes, {}: {volume} is not the greatest that meets letter {letter}", call.name())
            });
        }
    }

    pub fn random(&mut self, count: u64) {
        for _ in 0..count {
            let call = draw_call(&mut self.draw, self.method);
            let (theirs, ours) = (call.by_engine(), call.by_second(self.method));
            self.same(&call, "engine and second", &theirs, &ours);
            if !BEFORE_THE_CASE.contains(&ours.result) {
                self.single_answer(&call, &theirs);
            }
            if ours.result > 0 {
                self.neighbours(&call, &theirs);
            }
            self.outcomes.seen(outcome(&ours));
            if ours.result > 0 && has_six_digits(call.hourly_demand()) {
                self.outcomes.seen(SIX_DIGITS.to_string());
            }
            if ours.result > 0 && parts(&ours).1.contains(&GREATEST_DAILY_TRAFFIC) {
                self.outcomes.seen(AT_THE_END.to_string());
            }
        }
    }

    // DAILY-2: daily service volumes by plain counting.
    pub fn counted(&mut self, count: u64) {
        for _ in 0..count {
            let call = draw_counted_call(&mut self.draw, self.method);
            let (theirs, ours) = (call.by_engine(), call.by_second(self.method));
            self.same(&call, "engine and second", &theirs, &ours);
            let counted = call.section(self.method).daily_volumes_by_counting();
            self.tally.equal(parts(&theirs).1, &counted[..], || format!("daily volumes by counting, {}", call.name()));
        }
    }

    pub fn coverage(&mut self) {
        self.outcomes.cover(&mut self.tally, &OUTCOMES, LEAST_OF_EACH);
    }
}
