// Figures worked out by hand from the rules, checked against both implementations. Lines are written with blanks for tabs; a - stands for a
// figure that is not checked there by itself.

use super::draw::{DEMAND_FIELD, NUMBER_FIELDS};
use super::engine;
use super::tally::Tally;
use crate::second::lines;
use crate::second::method::Method;
use crate::second::survey::{self, Unit};

const LINE: &str = "F E 75400 110 20 0 D 24 2 2000 920 50 R";

// ANSWER-1, UNIT-1, TEXT-1 to TEXT-3: lines and the first fields of their answers.
const ANSWERS: &[(&str, &str)] = &[
    // The line above: the eleven figures.
    (LINE, "C 60782 230782 1196 60782 197 1117 1829 2642 3360 3858"),
    // FFS-2, FFS-8: ramp terms 3,220, 10,318 and 0, seen through F.
    ("F E 70000 120 60 60 D 6 2 0 1000 0 L", "A 66780"),
    ("F E 70000 120 60 60 D 24 2 0 1000 0 L", "A 59682"),
    ("F E 70000 120 60 60 D 0 2 0 1000 0 L", "A 70000"),
    // FFS-10, REFUSAL-10: 10,318 off at the ends of F: to 54,999, 55,000, 74,999 and 75,000.
    ("F E 65317 120 60 60 D 24 2 1000 1000 0 L", "X 10"),
    ("F E 65318 120 60 60 D 24 2 1000 1000 0 L", "A 55000"),
    ("F E 85317 120 60 60 D 24 2 1000 1000 0 L", "A 74999"),
    ("F E 85318 120 60 60 D 24 2 1000 1000 0 L", "A 75000"),
    // CURVE-7, LETTER-1: the last flow rate of A, and the next.
    ("F G 75000 120 60 60 D 0 2 1650 1000 0 L", "A 75000 - 825 - 110"),
    ("F G 75000 120 60 60 D 0 2 1652 1000 0 L", "B 75000 - 826 - 111"),
    // LETTER-2, REFUSAL-10: at capacity and past it; below the lower end of F.
    ("F G 55000 120 60 60 D 0 2 4500 1000 0 L", "E 55000 - - 50000 450"),
    ("F G 55000 120 60 60 D 0 2 4501 1000 0 L", "F 55000 - - 0 0"),
    ("F G 54999 120 60 60 D 0 2 4500 1000 0 L", "X 10"),
    // CURVE-5, CURVE-6: at the breakpoint of kind M, and halfway to capacity.
    ("M G 60000 120 60 60 D 0 2 2800 1000 0 L", "C 60000 - 1400 60000 234"),
    ("M G 60000 120 60 60 D 0 2 3600 1000 0 L", "D 60000 - 1800 55518 325"),
    // FFS-6: with median D and with U.
    ("M E 60000 110 40 20 D 10 2 0 1000 0 L", "A 54300"),
    ("M E 60000 110 40 20 U 10 2 0 1000 0 L", "A 53600"),
    // FFS-4: right clearance 59, kind F, 2 lanes: 60 off.
    ("F E 70000 120 59 60 D 0 2 0 1000 0 L", "A 69940"),
    // CURVE-7: V = 0: density 0, A.
    ("F E 75400 110 20 0 D 24 2 0 920 50 R", "A 60782 - 0 60782 0"),
    ("M G 45000 100 0 0 U 200 3 0 250 1000 R", "A 45000 - 0 45000 0"),
    // FFS-10, KIND-1, REFUSAL-10: past both ends of F.
    ("F G 75001 120 60 60 D 0 2 0 1000 0 L", "A 75000"),
    ("F G 90000 120 60 60 D 0 2 0 1000 0 L", "A 75000"),
    ("F E 75001 120 60 60 D 0 2 0 1000 0 L", "A 75000"),
    ("F G 55000 120 60 60 D 0 2 0 1000 0 L", "A 55000"),
    ("F E 55000 120 60 60 D 0 2 0 1000 0 L", "A 55000"),
    ("F E 54999 120 60 60 D 0 2 0 1000 0 L", "X 10"),
    ("M G 70001 120 60 60 D 0 2 0 1000 0 L", "A 70000"),
    ("M E 90000 120 60 60 D 0 2 0 1000 0 L", "A 70000"),
    ("M G 45000 120 60 60 D 0 2 0 1000 0 L", "A 45000"),
    ("M G 44999 120 60 60 D 0 2 0 1000 0 L", "X 10"),
    ("M E 44999 120 60 60 D 0 2 0 1000 0 L", "X 10"),
    // FFS-1: given, so that fields for the road are not used.
    ("F G 60000 100 0 0 D 48 2 0 1000 0 L", "A 60000"),
    ("M G 60000 100 0 0 U 200 2 0 1000 0 L", "A 60000"),
    // CURVE-1: capacity.
    ("F G 55000 120 60 60 D 0 2 0 1000 0 L", "A 55000 225000"),
    ("F G 69999 120 60 60 D 0 2 0 1000 0 L", "A 69999 239999"),
    ("F G 70000 120 60 60 D 0 2 0 1000 0 L", "A 70000 240000"),
    ("F G 75000 120 60 60 D 0 2 0 1000 0 L", "A 75000 240000"),
    ("M G 45000 120 60 60 D 0 2 0 1000 0 L", "A 45000 190000"),
    ("M G 64999 120 60 60 D 0 2 0 1000 0 L", "A 64999 229998"),
    ("M G 65000 120 60 60 D 0 2 0 1000 0 L", "A 65000 230000"),
    ("M G 70000 120 60 60 D 0 2 0 1000 0 L", "A 70000 230000"),
    // CURVE-2, CURVE-3: up to the breakpoint S = F, and not past it: 1,600 at F = 60,000 on kind F.
    ("F G 60000 120 60 60 D 0 2 3200 1000 0 L", "D 60000 230000 1600 60000 267"),
    ("F G 60000 120 60 60 D 0 2 3202 1000 0 L", "D 60000 230000 1601 59999 267"),
    // UNIT-3, FLOW-1, FLOW-2: flow rates are rounded up: 999 × 1.05 / (0.92 × 2) = 570.08, 999 × 1.1 / (0.92 × 2) = 597.2.
    ("F G 60000 120 60 60 D 0 2 999 920 50 L", "A 60000 230000 571"),
    ("F G 60000 120 60 60 D 0 2 999 920 50 R", "A 60000 230000 598"),
    // WEATHER-1, WEATHER-2: both factors; the speed factor alone, to just above 50,000 and just below; the capacity factor alone.
    ("F G 75000 120 60 60 D 0 2 3000 1000 0 L 950 900", "C 71250 216000 1500 66271 227 1566 2506 3294 3884 4320"),
    ("F G 75000 120 60 60 D 0 2 3000 1000 0 L 667 1000", "D 50025 220025 1500 50025 300 1100 1800 2600 3500 4400"),
    ("F G 75000 120 60 60 D 0 2 3000 1000 0 L 666 1000", "X 10"),
    ("F G 75000 120 60 60 D 0 2 3000 1000 0 L 1000 500", "F 75000 120000 1500 0 0 1406 1836 2104 2280 2400"),
    // WEATHER-3: b = 128,580 × 0.942 × 0.942, rounded down once.
    ("F G 67855 120 60 60 D 0 2 3534 1000 0 L 1000 942", "D 67855 224059 1767 62000 285"),
    // WEATHER-3: b and c from the F after its factor.
    ("F G 60000 120 60 60 D 0 2 3000 1000 0 L 950 1000", "D 57000 227000 1500 57000 264"),
    ("F G 60000 120 60 60 D 0 2 3800 1000 0 L 950 1000", "D 57000 227000 1900 56297 338"),
    // WEATHER-2, FFS-10: the upper end before the factor; the limit of 55,000 before it and of 50,000 after it.
    ("F G 90000 120 60 60 D 0 2 0 1000 0 L 900 1000", "A 67500"),
    ("F G 55000 120 60 60 D 0 2 0 1000 0 L 910 1000", "A 50050"),
    ("F G 55000 120 60 60 D 0 2 0 1000 0 L 909 1000", "X 10"),
    ("F G 54999 120 60 60 D 0 2 0 1000 0 L 910 1000", "X 10"),
    // WEATHER-2, WEATHER-3: 50,000 itself, and 49,999.9 rounded down. F = 57,300.955, c = 215,025.8, b = 152,851.65: each rounded down.
    ("F G 62500 120 60 60 D 0 2 3000 1000 0 L 800 1000", "D 50000 220000 1500 50000 300"),
    ("F G 55066 120 60 60 D 0 2 0 1000 0 L 908 1000", "X 10"),
    ("F G 60001 120 60 60 D 0 2 3128 1000 0 L 955 946", "- 57300 215025 1564 57268"),
    ("F G 60001 120 60 60 D 0 2 3108 1000 0 L 955 946", "- 57300 215025 1554 57284"),
    // WEATHER-3: an estimated speed in snow. João Pedro Neto Lesto, 'Estudo comparativo da aplicação do HCM na análise de infraestruturas
    // rodoviárias tipo' (ISEL, Dezembro de 2023), works c from the F before the factor: 1,800.
    ("F E 75400 110 20 0 D 24 2 2000 920 50 R 860 780", "C 52272 173372 1196 52222 230"),
    // WEATHER-1, LINE-4: clear weather written out.
    ("F E 75400 110 20 0 D 24 2 2000 920 50 R 1000 1000", "C 60782 230782 1196 60782 197 1117 1829 2642 3360 3858"),
    ("M G 60000 120 60 60 D 0 2 3600 1000 0 L 1000 1000", "D 60000 - 1800 55518 325"),
    // REFUSAL-19, ORDER-2: factors past their ends on both kinds, on cases that 9 or 10 refuses too.
    ("F G 75000 120 60 60 D 0 2 3000 1000 0 L 500 1000", "X 10"),
    ("F G 75000 120 60 60 D 0 2 3000 1000 0 L 499 1000", "X 19"),
    ("F G 75000 120 60 60 D 0 2 3000 1000 0 L 1001 1000", "X 19"),
    ("F G 75000 120 60 60 D 0 2 3000 1000 0 L 99999 1000", "X 19"),
    ("F G 75000 120 60 60 D 0 2 3000 1000 0 L 0 0", "X 19"),
    ("M G 60000 120 60 60 D 0 2 0 1000 0 L 999 1000", "X 19"),
    ("M G 30000 120 60 60 D 0 2 0 1000 0 L 1000 999", "X 19"),
    ("F G 75000 120 60 60 D 0 2 0 1000 1001 L 499 1000", "X 9"),
    // LINE-2, FLOW-2: five digits of demand and six: 59,782.01, 59,782.61 and 597,825.49 cars.
    ("F E 75400 110 20 0 D 24 2 99999 920 50 R", "F 60782 230782 59783 0 0 1117 1829 2642 3360 3858"),
    ("F E 75400 110 20 0 D 24 2 100000 920 50 R", "F 60782 230782 59783 0 0 1117 1829 2642 3360 3858"),
    ("F E 75400 110 20 0 D 24 2 999999 920 50 R", "F 60782 230782 597826 0 0 1117 1829 2642 3360 3858"),
    ("F G 60000 120 60 60 D 0 2 99999 250 1000 R", "F 60000 230000 599994 0 0"),
    ("F G 60000 120 60 60 D 0 2 100000 250 1000 R", "F 60000 230000 600000 0 0"),
    ("M G 60000 120 60 60 D 0 2 100000 1000 0 L", "F 60000 220000 50000 0 0 1320 2160 3064 3786 4400"),
    ("F G 75000 120 60 60 D 0 2 999999 1000 0 L 950 900", "F 71250 216000 500000 0 0 1566 2506 3294 3884 4320"),
    // On eight lanes of level terrain a car is 7.752 vehicles an hour: 128,998.84.
    ("F G 72500 120 60 60 D 0 8 0 969 0 L", "A 72500 240000 0 72500 0 6178 10054 13620 16449 18604"),
    ("F G 72500 120 60 60 D 0 8 999999 969 0 L", "F 72500 240000 128999 0 0 6178 10054 13620 16449 18604"),
    // ANSWER-2: the greatest flow rate of each kind. With two lanes of kind F a vehicle is six cars, with three of kind M four.
    ("F G 75000 120 60 60 D 0 2 999999 250 1000 R", "F 75000 240000 5999994 0 0 137 221 296 355 400"),
    ("M G 45000 120 60 60 D 0 2 999999 250 1000 R", "F 45000 190000 5999994 0 0"),
    ("M G 45000 120 60 60 D 0 3 999999 250 1000 R", "F 45000 190000 3999996 0 0"),
    // LINE-5: the longest line that is accepted: 374,999.625 cars, and the last flow rates 825, 1,328, 1,776, 2,130 and 2,400 by 8 / 3.
    ("F G 75000 200 400 400 D 48 8 999999 1000 1000 R 1000 1000", "F 75000 240000 375000 0 0 2200 3541 4736 5680 6400"),
    // LINE-2: every number at its widest.
    (WIDEST, "X 1"),
];

// LINE-2, LINE-5: a line as long as any that is well formed.
const WIDEST: &str = "F G 99999 99999 99999 99999 D 99999 99999 999999 99999 99999 L 99999 99999";
const LONGEST: usize = 74;

// LANES-1: letter, line, answer.
const LANES: &[(u32, &str, &str)] = &[
    (3, LINE, "2"),
    (3, "F E 75400 110 20 0 D 24 2 2643 920 50 R", "3"),
    (3, "F E 75400 110 20 0 D 24 2 2642 920 50 R", "2"),
    (3, "F E 75400 110 20 0 D 24 2 99999 920 50 R", "X 14"),
    (3, "F E 75400 110 20 0 D 24 2 100000 920 50 R", "X 14"),
    (3, "F E 75400 110 20 0 D 24 2 999999 920 50 R", "X 14"),
    (1, "F E 75400 110 20 0 D 24 2 999999 920 50 R", "X 14"),
    (5, "F E 75400 110 20 0 D 24 2 999999 920 50 R", "X 14"),
    (5, "M G 60000 120 60 60 D 0 2 999999 1000 0 L", "X 14"),
    // LANES-3, REFUSAL-16: the widest line: 16 before 1.
    (5, WIDEST, "X 1"),
    (6, WIDEST, "X 16"),
    // LANES-1, CASE-3: the answer does not rest on the lanes of the case.
    (3, "F E 75400 110 20 0 D 24 8 2000 920 50 R", "2"),
    // LANES-2, LANES-3, REFUSAL-14: 1 to 9 are asked, 10 is not. A missing tenth takes off 60, 40, 20, 10: F is below 55,000 with no count,
    // one, two, three, every count.
    (5, "F E 55060 120 59 0 D 0 2 0 1000 0 L", "2"),
    (5, "F E 55059 120 59 0 D 0 2 0 1000 0 L", "3"),
    (5, "F E 55039 120 59 0 D 0 2 0 1000 0 L", "4"),
    (5, "F E 55019 120 59 0 D 0 2 0 1000 0 L", "5"),
    (5, "F E 55009 120 59 0 D 0 2 0 1000 0 L", "X 14"),
    (5, "F G 54999 120 60 60 D 0 2 0 1000 0 L", "X 14"),
    (5, "M G 44999 120 60 60 D 0 2 0 1000 0 L", "X 14"),
    // LANES-2: 24 ramps take off 10,318 with every count.
    (5, "F E 65317 120 60 60 D 24 2 0 1000 0 L", "X 14"),
    (5, "F E 65318 120 60 60 D 24 2 0 1000 0 L", "2"),
    // KIND-1, LANES-2: the least and the greatest count of each kind: 825 a lane is A at F = 75,000 on kind F, 2,200 is E at 60,000 on kind M.
    (1, "F G 75000 120 60 60 D 0 2 1650 1000 0 L", "2"),
    (1, "F G 75000 120 60 60 D 0 2 6600 1000 0 L", "8"),
    (1, "F G 75000 120 60 60 D 0 2 6601 1000 0 L", "X 14"),
    (5, "M G 60000 120 60 60 D 0 2 4400 1000 0 L", "2"),
    (5, "M G 60000 120 60 60 D 0 2 6600 1000 0 L", "3"),
    (5, "M G 60000 120 60 60 D 0 2 6601 1000 0 L", "X 14"),
    // LANES-1, LANES-2: in snow, D with 2 lanes and 2,222 vehicles. F after its factor is below 50,000 with one count, two, and all.
    (3, "F E 75400 110 20 0 D 24 2 2221 920 50 R 860 780", "2"),
    (3, "F E 75400 110 20 0 D 24 2 2222 920 50 R 860 780", "3"),
    (5, "F E 59600 120 0 0 D 0 2 0 1000 0 L 880 1000", "3"),
    (5, "F E 58600 120 0 0 D 0 2 0 1000 0 L 880 1000", "4"),
    (5, "F E 58600 120 0 0 D 0 2 0 1000 0 L 861 1000", "X 14"),
    // LANES-3: 19 before 14, after 16.
    (5, "F G 75000 120 60 60 D 0 2 99999 1000 0 L 499 1000", "X 19"),
    (5, "F G 75000 120 60 60 D 0 2 999999 1000 0 L 499 1000", "X 19"),
    (5, "M G 44999 120 60 60 D 0 2 0 1000 0 L 1000 999", "X 19"),
];

// FIGURE-1: chapter 26 of the manual, its examples 1 to 3. The first is the line above. The second and third are from memory, not from the book.
// Example 2: 3 lanes for D, F of about 67.3 mi/h. Example 3: D, and E with 5,600 vehicles.
const EXAMPLE_2: &str = "F E 75400 120 60 60 D 18 3 4000 850 150 L";
const EXAMPLES: &[(&str, &str)] = &[
    (LINE, "C 60782 230782 1196 60782 197 1117 1829 2642 3360 3858"),
    (EXAMPLE_2, "D"),
    ("F G 70000 120 60 60 D 0 3 5000 950 100 L", "D"),
    ("F G 70000 120 60 60 D 0 3 5600 950 100 L", "E"),
];

// FFS-3: width, and what it takes off.
const WIDTHS: [(u64, u64); 6] = [(100, 6_600), (109, 6_600), (110, 1_900), (119, 1_900), (120, 0), (200, 0)];

// FFS-4, FFS-9: right clearance, and the missing tenths; lanes, and what a missing tenth takes off.
const MISSING_TENTHS: [(u64, u64); 12] =
    [(0, 60), (1, 59), (9, 51), (10, 50), (20, 40), (25, 35), (39, 21), (50, 10), (59, 1), (60, 0), (61, 0), (400, 0)];
const PER_TENTH: [(u64, u64); 7] = [(2, 60), (3, 40), (4, 20), (5, 10), (6, 10), (7, 10), (8, 10)];

// FFS-5, FFS-9: right and left clearance of a divided highway, and what they take off with 2 and with 3 lanes.
const TOTAL_CLEARANCE: [(u64, u64, u64, u64); 30] = [
    (60, 60, 0, 0),
    (400, 61, 0, 0),
    (60, 59, 20, 20),
    (59, 60, 20, 20),
    (50, 60, 200, 200),
    (60, 41, 380, 380),
    (40, 60, 400, 400),
    (60, 39, 425, 425),
    (60, 30, 650, 650),
    (38, 45, 825, 825),
    (21, 60, 875, 875),
    (20, 60, 900, 900),
    (60, 19, 920, 920),
    (35, 35, 1_100, 1_100),
    (1, 60, 1_280, 1_280),
    (60, 0, 1_300, 1_300),
    (0, 400, 1_300, 1_300),
    (59, 0, 1_325, 1_320),
    (25, 25, 1_550, 1_500),
    (20, 21, 1_775, 1_680),
    (20, 20, 1_800, 1_700),
    (20, 19, 1_890, 1_755),
    (10, 11, 3_510, 2_745),
    (10, 10, 3_600, 2_800),
    (0, 20, 3_600, 2_800),
    (19, 0, 3_690, 2_855),
    (5, 5, 4_500, 3_350),
    (1, 0, 5_310, 3_845),
    (0, 1, 5_310, 3_845),
    (0, 0, 5_400, 3_900),
];

// FFS-8: what 0 to 48 ramps in six miles take off, each of the 49 terms worked out from the rule.
const RAMPS: [u64; 49] = [
    0, 715, 1_280, 1_799, 2_291, 2_763, 3_220, 3_665, 4_100, 4_527, 4_945, 5_358, 5_764, 6_165, 6_561, 6_952, 7_340, 7_723, 8_103, 8_479,
    8_853, 9_223, 9_591, 9_955, 10_318, 10_678, 11_035, 11_391, 11_744, 12_095, 12_445, 12_792, 13_138, 13_482, 13_825, 14_165, 14_505,
    14_842, 15_178, 15_513, 15_847, 16_179, 16_510, 16_839, 17_168, 17_495, 17_821, 18_146, 18_469,
];

// FFS-7: access points, and what they take off.
const ACCESS: [(u64, u64); 6] = [(0, 0), (1, 250), (39, 9_750), (40, 10_000), (41, 10_000), (200, 10_000)];

// SURVEY-1 to SURVEY-3: unit, speed, cars, flow, answer.
const SURVEYS: &[(Unit, f32, u32, u32, i32)] = &[
    (Unit::KilometresPerHour, 100.0, 100, 999, 62_137),
    (Unit::MilesPerHour, 60.0, 100, 999, 60_000),
    (Unit::MilesPerHour, 60.5, u32::MAX, 0, 60_500),
    // SURVEY-2, REFUSAL-13: 30 and the float below it; the float nearest to 90.001, which lies below it, and the next.
    (Unit::MilesPerHour, 30.0, 100, 0, 30_000),
    (Unit::MilesPerHour, 29.999_998, 100, 0, -13),
    (Unit::MilesPerHour, 90.001, 100, 0, 90_000),
    (Unit::MilesPerHour, 90.001_01, 100, 0, -13),
    // The floats on both sides of 48.28032 km/h, which is 30 mi/h, and of 144.842569344 km/h, which is 90.001 mi/h.
    (Unit::KilometresPerHour, 48.280_323, 100, 0, 30_000),
    (Unit::KilometresPerHour, 48.280_319, 100, 0, -13),
    (Unit::KilometresPerHour, 144.842_56, 100, 0, 90_000),
    (Unit::KilometresPerHour, 144.842_58, 100, 0, -13),
    (Unit::MilesPerHour, f32::INFINITY, 100, 0, -13),
    (Unit::KilometresPerHour, f32::NAN, 100, 0, -13),
    (Unit::MilesPerHour, -60.0, 100, 0, -13),
    (Unit::MilesPerHour, 0.0, 100, 0, -13),
    // SURVEY-3, REFUSAL-11 to REFUSAL-13: in this order.
    (Unit::MilesPerHour, 0.0, 99, 1_000, -11),
    (Unit::MilesPerHour, 60.0, 99, 999, -11),
    (Unit::MilesPerHour, 60.0, 0, 0, -11),
    (Unit::MilesPerHour, 0.0, 100, 1_000, -12),
    (Unit::KilometresPerHour, 100.0, 100, 1_000, -12),
    (Unit::KilometresPerHour, 100.0, 100, u32::MAX, -12),
];

// REFUSAL-1 to REFUSAL-6, REFUSAL-8 to REFUSAL-10, REFUSAL-19, KIND-1: of each kind, number, field (the first is 0), least and greatest value
// that it does not refuse. Where no value is too small, the least is 0. 7 cannot be put on a line, and a speed factor of 500 leaves no F of
// 50,000: it is among the answers.
const FREEWAY_LIMITS: [(i32, usize, u64, u64); 10] = [
    (1, 2, 55_000, 90_000),
    (2, 3, 100, 200),
    (3, 4, 0, 400),
    (3, 5, 0, 400),
    (5, 7, 0, 48),
    (6, 8, 2, 8),
    (8, 10, 250, 1_000),
    (9, 11, 0, 1_000),
    (19, 14, 500, 1_000),
    (10, 2, 55_000, 90_000),
];
const MULTILANE_LIMITS: [(i32, usize, u64, u64); 11] = [
    (1, 2, 45_000, 90_000),
    (2, 3, 100, 200),
    (3, 4, 0, 400),
    (3, 5, 0, 400),
    (5, 7, 0, 200),
    (6, 8, 2, 3),
    (8, 10, 250, 1_000),
    (9, 11, 0, 1_000),
    (19, 13, 1_000, 1_000),
    (19, 14, 1_000, 1_000),
    (10, 2, 45_000, 90_000),
];

// ORDER-2: a fault for each refusal, in their order: number, field, value.
const FREEWAY_FAULTS: [(i32, usize, &str); 11] = [
    (1, 2, "29999"),
    (2, 3, "99"),
    (3, 5, "401"),
    (4, 6, "T"),
    (5, 7, "49"),
    (6, 8, "9"),
    (8, 10, "249"),
    (9, 11, "1001"),
    (19, 13, "499"),
    (19, 14, "1001"),
    (10, 2, "54999"),
];
const MULTILANE_FAULTS: [(i32, usize, &str); 9] = [
    (1, 2, "90001"),
    (2, 3, "201"),
    (3, 4, "401"),
    (5, 7, "201"),
    (6, 8, "4"),
    (8, 10, "1001"),
    (9, 11, "99999"),
    (19, 14, "999"),
    (10, 2, "44999"),
];
const FREEWAY: &str = "F G 60000 120 60 60 D 0 2 1000 1000 0 L 1000 1000";
const MULTILANE: &str = "M G 60000 120 60 60 D 0 2 1000 1000 0 L 1000 1000";

// REFUSAL-15, LINE-1 to LINE-3: malformed lines. A ~ stands for a tab beside one.
const MALFORMED: &[&str] = &[
    "",
    "~",
    "F",
    "F G 60000 120 60 60 D 0 2 1000 1000 0",
    "F G 60000 120 60 60 D 0 2 1000 1000 0 L ",
    "F G 60000 120 60 60 D 0 2 1000 1000 0 L L",
    " F G 60000 120 60 60 D 0 2 1000 1000 0 L",
    "F G 60000 ~120 60 60 D 0 2 1000 1000 0 L",
    "F G 60000  60 60 D 0 2 1000 1000 0 L",
    "f G 60000 120 60 60 D 0 2 1000 1000 0 L",
    "FF G 60000 120 60 60 D 0 2 1000 1000 0 L",
    "G G 60000 120 60 60 D 0 2 1000 1000 0 L",
    "F F 60000 120 60 60 D 0 2 1000 1000 0 L",
    "F e 60000 120 60 60 D 0 2 1000 1000 0 L",
    "F G 060000 120 60 60 D 0 2 1000 1000 0 L",
    "F G 60000 0120 60 60 D 0 2 1000 1000 0 L",
    "F G 60000 120 00 60 D 0 2 1000 1000 0 L",
    "F G 60000 120 60 6O D 0 2 1000 1000 0 L",
    "F G 60000 120 60 -1 D 0 2 1000 1000 0 L",
    "F G 60000 120 60 60 X 0 2 1000 1000 0 L",
    "F G 60000 120 60 60 d 0 2 1000 1000 0 L",
    "F G 60000 120 60 60 D +0 2 1000 1000 0 L",
    "F G 60000 120 60 60 D 0 2.0 1000 1000 0 L",
    "F G 60000 120 60 60 D 0 2 1000000 1000 0 L",
    "F G 60000 120 60 60 D 0 2 4294968296 1000 0 L",
    "F G 60000 120 60 60 D 0 2 1000 1e3 0 L",
    "F G 60000 120 60 60 D 0 2 1000 1000 : L",
    "F G 60000 120 60 60 D 0 2 1000 1000 / L",
    "F G 60000 120 60 60 D 0 2 1000 1000 0 l",
    "F G 60000 120 60 60 D 0 2 1000 1000 0 M",
    "F G 60000 120 60 60 D 0 2 1000 1000 0 L\r",
    "F G 60000 120 60 60 D 0 2 1000 1000 0 L\n",
    "F G 60000 120 60 60 D 0 2 1000 1000 0 L\0",
    // LINE-4: 14 fields, 16, and 15 of which a factor is malformed.
    "F G 60000 120 60 60 D 0 2 1000 1000 0 L 1000",
    "F G 60000 120 60 60 D 0 2 1000 1000 0 L 1000 1000 1000",
    "F G 60000 120 60 60 D 0 2 1000 1000 0 L 1000 1000 ",
    "F G 60000 120 60 60 D 0 2 1000 1000 0 L 1000 ",
    "F G 60000 120 60 60 D 0 2 1000 1000 0 L  ",
    "F G 60000 120 60 60 D 0 2 1000 1000 0 L 0950 1000",
    "F G 60000 120 60 60 D 0 2 1000 1000 0 L 1000 0950",
    "F G 60000 120 60 60 D 0 2 1000 1000 0 L 1000 100000",
    "F G 60000 120 60 60 D 0 2 1000 1000 0 L 1.0 1000",
    "F G 60000 120 60 60 D 0 2 1000 1000 0 1000 1000 L",
    // LINE-2, LINE-5: 80 and 81 bytes.
    "F G 60000 120 60 60 D 0 2 1000 1000 00000000000000000000000000000000000000000000 L",
    "F G 60000 120 60 60 D 0 2 1000 1000 000000000000000000000000000000000000000000000 L",
];

// LINE-2: numbers of six digits, and what no field holds: leading zeros, seven digits, and six or seven bytes of which one or more are no digit.
const SIX_DIGITS: [&str; 5] = ["100000", "100001", "123456", "999998", "999999"];
const NO_NUMBERS: [&str; 20] = [
    "099999", "000000", "0999999", "0000001", "1000000", "1000001", "1234567", "9999999", "99999O", "O99999", "99999/", "99999:", "9/9999",
    "+99999", "-99999", "+999999", "99999.", "999,999", "1e5000", "DDDDDD",
];

// LINE-2: the least and the greatest demand of one to five digits.
const SHORTER_DEMANDS: [&str; 11] = ["0", "1", "9", "10", "99", "100", "999", "1000", "9999", "10000", "99999"];

fn tabbed(line: &str) -> Vec<u8> {
    line.replace(' ', "\t").replace('~', "\t").into_bytes()
}

fn with_field(line: &str, field: usize, value: &str) -> String {
    let mut fields: Vec<&str> = line.split(' ').collect();
    fields[field] = value;
    fields.join(" ")
}

// Whether a text begins with the expected fields, of which - fits any.
fn begins(text: &str, expected: &str) -> bool {
    let mut fields = text.split('\t');
    expected.split(' ').all(|wanted| fields.next().is_some_and(|field| wanted == "-" || wanted == field))
}

pub struct Worked<'a> {
    pub method: &'a Method,
    pub tally: Tally,
}

impl Worked<'_> {
    // Both implementations must answer a line alike, and as it was worked out.
    fn answer(&mut self, line: &str, expected: &str) {
        let bytes = tabbed(line);
        let (theirs, ours) = (engine::answer_text(&bytes), lines::los_line(self.method, &bytes));
        let ours = ours.trim_end_matches('\n');
        self.both(line, &theirs, ours, expected);
    }

    fn lanes(&mut self, letter: u32, line: &str, expected: &str) {
        let bytes = tabbed(line);
        let mut buffer = [0; 64];
        let result = lines::lanes(self.method, &bytes, letter, &mut buffer);
        let ours = engine::text(result, &buffer);
        self.both(&format!("lanes for letter {letter}, {line}"), &engine::lanes_text(&bytes, letter), &ours, expected);
    }

    fn both(&mut self, what: &str, theirs: &str, ours: &str, expected: &str) {
        self.tally.check(begins(theirs, expected), || format!("{what}: engine {theirs:?}, worked out {expected:?}"));
        self.tally.check(begins(ours, expected), || format!("{what}: second {ours:?}, worked out {expected:?}"));
        self.tally.check(theirs == ours, || format!("{what}: engine {theirs:?}, second {ours:?}"));
    }

    fn free_flow_speed(&mut self, line: &str, expected: u64) {
        self.answer(line, &format!("A {expected}"));
    }

    fn adjustments(&mut self) {
        for (width, off) in WIDTHS {
            self.free_flow_speed(&format!("F E 70000 {width} 60 60 D 0 2 0 1000 0 L"), 70_000 - off);
            self.free_flow_speed(&format!("M E 70000 {width} 60 60 D 0 2 0 1000 0 L"), 70_000 - off);
        }
        for (right, missing) in MISSING_TENTHS {
            for (lanes, per_tenth) in PER_TENTH {
                self.free_flow_speed(&format!("F E 70000 120 {right} 0 D 0 {lanes} 0 1000 0 L"), 70_000 - missing * per_tenth);
            }
        }
        for (right, left, two, three) in TOTAL_CLEARANCE {
            for (lanes, off) in [(2, two), (3, three)] {
                self.free_flow_speed(&format!("M E 70000 120 {right} {left} D 0 {lanes} 0 1000 0 L"), 70_000 - off);
            }
        }
        // FFS-5, FFS-6: each median, with left clearances.
        for (left, right, off) in [(0, 60, 0), (60, 60, 0), (400, 59, 20), (0, 0, 1_300), (0, 39, 425), (7, 30, 650)] {
            self.free_flow_speed(&format!("M E 70000 120 {right} {left} U 0 2 0 1000 0 L"), 70_000 - off - 1_600);
            self.free_flow_speed(&format!("M E 70000 120 {right} {left} T 0 2 0 1000 0 L"), 70_000 - off);
        }
        for (ramps, off) in RAMPS.iter().enumerate() {
            self.free_flow_speed(&format!("F E 75000 120 60 60 D {ramps} 2 0 1000 0 L"), 75_000 - off);
        }
        for (points, off) in ACCESS {
            self.free_flow_speed(&format!("M E 70000 120 60 60 D {points} 2 0 1000 0 L"), 70_000 - off);
        }
        self.every_clearance();
        // FFS-7: every count of access points, by both implementations alone.
        for points in 0..=200 {
            self.answer(&format!("M E 70000 120 60 60 D {points} 2 0 1000 0 L"), "A");
        }
    }

    // FFS-4, FFS-5, FFS-9: every clearance that counts, and one more, with every lane count and median, by both implementations alone.
    fn every_clearance(&mut self) {
        for right in 0..=61 {
            for lanes in 2..=8 {
                self.answer(&format!("F E 70000 120 {right} 0 D 0 {lanes} 0 1000 0 L"), "A");
            }
            for left in 0..=61 {
                for (median, lanes) in [("D", 2), ("D", 3), ("U", 2), ("U", 3), ("T", 2), ("T", 3)] {
                    self.answer(&format!("M E 70000 120 {right} {left} {median} 0 {lanes} 0 1000 0 L"), "A");
                }
            }
        }
    }

    // CASE-4: the values at a limit are accepted, those past it refused with its number.
    fn limits(&mut self) {
        for (line, limits) in [(FREEWAY, &FREEWAY_LIMITS[..]), (MULTILANE, &MULTILANE_LIMITS[..])] {
            for &(number, field, least, most) in limits {
                for value in [least, most] {
                    self.accepted(&with_field(line, field, &value.to_string()));
                }
                if number != 10 {
                    self.answer(&with_field(line, field, &(most + 1).to_string()), &format!("X {number}"));
                }
                if number != 1 && least > 0 {
                    self.answer(&with_field(line, field, &(least - 1).to_string()), &format!("X {number}"));
                }
            }
            self.answer(&with_field(line, 2, "29999"), "X 1");
            self.answer(&with_field(line, 2, "30000"), "X 10");
        }
        for median in ["U", "T"] {
            self.answer(&with_field(FREEWAY, 6, median), "X 4");
            self.accepted(&with_field(MULTILANE, 6, median));
        }
    }

    fn accepted(&mut self, line: &str) {
        self.answer(line, "-");
        let text = engine::answer_text(&tabbed(line));
        self.tally.check(!text.starts_with('X'), || format!("{line}: engine {text:?}, it is to be accepted"));
    }

    // ORDER-1, LANES-3, CALL-4: of two faults the one that comes first is refused. The lanes question passes over 10.
    fn two_faults(&mut self, line: &str, faults: &[(i32, usize, &str)]) {
        for (place, &(number, field, value)) in faults.iter().enumerate() {
            for &(_, other_field, other_value) in &faults[place..] {
                let faulty = with_field(&with_field(line, other_field, other_value), field, value);
                self.answer(&faulty, &format!("X {number}"));
                self.lanes(5, &faulty, &format!("X {}", if number == 10 { 14 } else { number }));
                self.lanes(0, &faulty, "X 16");
                self.lanes(6, &faulty, "X 16");
                self.answer(&format!("{faulty} "), "X 15");
                self.lanes(0, &format!("{faulty} "), "X 15");
            }
        }
    }

    fn malformed(&mut self, line: &str) {
        self.answer(line, "X 15");
        self.lanes(1, line, "X 15");
        self.lanes(0, line, "X 15");
    }

    fn order(&mut self) {
        for (line, faults) in [(FREEWAY, &FREEWAY_FAULTS[..]), (MULTILANE, &MULTILANE_FAULTS[..])] {
            // 7 cannot be put on a line, so that no demand comes before a fault.
            for demand in ["1000", "999999"] {
                self.two_faults(&with_field(line, DEMAND_FIELD, demand), faults);
            }
        }
        for line in MALFORMED {
            self.malformed(line);
        }
        for letter in [0, 6, 7, 256, 257, 65_537, u32::MAX] {
            self.lanes(letter, LINE, "X 16");
        }
    }

    // LINE-2: six digits are a demand, and malformed in every other field.
    fn six_digits(&mut self) {
        for line in [FREEWAY, MULTILANE] {
            for field in NUMBER_FIELDS {
                for text in NO_NUMBERS {
                    self.malformed(&with_field(line, field, text));
                }
                for number in SIX_DIGITS {
                    self.six_digits_in(&with_field(line, field, number), field);
                }
            }
            for demand in SHORTER_DEMANDS {
                self.accepted(&with_field(line, DEMAND_FIELD, demand));
            }
        }
        self.tally.equal(WIDEST.len(), LONGEST, || "length of the widest line".to_string());
        for field in NUMBER_FIELDS {
            let wider = with_field(WIDEST, field, if field == DEMAND_FIELD { "1000000" } else { "100000" });
            self.malformed(&wider);
        }
    }

    fn six_digits_in(&mut self, line: &str, field: usize) {
        if field == DEMAND_FIELD {
            self.answer(line, "F");
            self.lanes(5, line, "X 14");
            self.lanes(0, line, "X 16");
        } else {
            self.malformed(line);
        }
    }

    // REFUSAL-17, CALL-4, TEXT-4: buffers of 63 bytes and less; all other calls here lend 64.
    fn buffer_length(&mut self) {
        for line in [LINE, "", &with_field(LINE, 2, "0")] {
            let (line, method) = (tabbed(line), self.method);
            for length in 0..64 {
                let buffer = &mut [0; 64][..length];
                let results = [
                    engine::answer(&line, buffer),
                    engine::lanes(&line, 0, buffer),
                    lines::answer(method, &line, buffer),
                    lines::lanes(method, &line, 0, buffer),
                ];
                self.tally.equal(results, [-17; 4], || format!("both calls of engine and second, buffer of {length}"));
            }
        }
    }

    fn surveys(&mut self) {
        for &(unit, speed, cars, flow, expected) in SURVEYS {
            let bits = speed.to_bits();
            let what = || format!("{speed} {unit:?}, {cars} cars, flow {flow}");
            self.tally.equal(engine::survey(bits, unit, cars, flow), expected, || format!("engine, {}", what()));
            self.tally.equal(survey::speed(bits, unit, cars, flow), expected, || format!("second, {}", what()));
        }
    }

    pub fn boundary_sections(&mut self) {
        for (line, expected) in ANSWERS {
            self.answer(line, expected);
        }
        for &(letter, line, expected) in LANES {
            self.lanes(letter, line, expected);
        }
        self.tally.equal(self.method.power(500), 403_321, || "T(500)".to_string());
        self.adjustments();
        self.limits();
        self.order();
        self.six_digits();
        self.buffer_length();
        self.surveys();
    }

    pub fn examples(&mut self) {
        for (line, expected) in EXAMPLES {
            self.answer(line, expected);
        }
        self.lanes(4, EXAMPLE_2, "3");
        let text = engine::answer_text(&tabbed(EXAMPLE_2));
        let free_flow_speed: u64 = text.split('\t').nth(1).and_then(|field| field.parse().ok()).unwrap_or(0);
        self.tally.equal((free_flow_speed + 50) / 100, 673, || format!("tenths of mi/h of F, {EXAMPLE_2}"));
    }
}
