// CALL-1, CALL-2: checks the example host examples/widening.c, at the project's root; the path of the built program is the argument.
//   - status 0: the example's output; growth 0; 'none' from the first year and later; the most lanes; the passing of 999,999;
//   - status 1: each refusal that a line can get, with its number;
//   - status 2: bad arguments of each kind;
//   - status 3: an output that can't be written.
// Each run must give these bytes on standard output and standard error, and this status.
//
// VOLUME-2, LANES-1: the expected rows rest on the service volumes of a lane with peak-hour factor 1,000 and no heavy vehicles:
//   a freeway of F = 75,000: A 825, B 1,328, C 1,776, D 2,130, E 2,400; the same with the weather's factors 950 and 900: B 1,253, C 1,647,
//   D 1,942; a multilane highway of F = 60,000: C 1,532, D 1,893.

#[allow(dead_code)]
mod host;

use host::{tabbed, Host};

const HEADER: &str = "year\tdemand\tletter\tlanes\n";
const USAGE: &str = "usage: widening LINE GROWTH LETTER YEARS\n\
    LINE: 13 or 15 fields parted by tabs; GROWTH: thousandths a year, 0 to 99999; LETTER: A to E; YEARS: 0 to 99999\n";
const NOT_WRITTEN: &str = "widening: standard output can't be written\n";

// Lanes and demand; growth, letter and years; the rows and the last lines, parted by semicolons, the fields of a row by blanks.
type Table = (&'static str, &'static str, &'static str);

const FREEWAY: [Table; 27] = [
    // growth 0
    ("2 1000", "0 C 2", "0 1000 A 2;1 1000 A 2;2 1000 A 2;need not be wider in years 0 to 2"),
    ("2 3553", "0 C 1", "0 3553 D 3;1 3553 D 3;must be wider in year 0"),
    ("2 99999", "0 E 1", "0 99999 F none;1 99999 F none;no widening suffices from year 0"),
    ("2 100000", "0 E 1", "0 100000 F none;1 100000 F none;no widening suffices from year 0"),
    ("2 999999", "0 E 1", "0 999999 F none;1 999999 F none;no widening suffices from year 0"),
    // no demand, and more lanes than needed
    ("2 0", "99999 A 1", "0 0 A 2;1 0 A 2;need not be wider in years 0 to 1"),
    ("5 3000", "0 C 0", "0 3000 A 2;need not be wider in years 0 to 0"),
    // REFUSAL-14, the most lanes: no count from the third year, the demand of 14,281.4 rounded up; no count from the first
    ("8 14000", "10 C 2", "0 14000 C 8;1 14140 C 8;2 14282 D none;need not be wider in years 0 to 1;no widening suffices from year 2"),
    ("8 19201", "0 E 1", "0 19201 F none;1 19201 F none;no widening suffices from year 0"),
    // its own lanes serve, then more, then none; its own, then none
    ("2 3500", "1000 C 3", "0 3500 C 2;1 7000 F 4;2 14000 F 8;3 28000 F none;must be wider in year 1;no widening suffices from year 3"),
    ("2 4000", "4000 E 1", "0 4000 D 2;1 20000 F none;need not be wider in years 0 to 0;no widening suffices from year 1"),
    // 999,999 is passed after a year in which its own lanes serve, fewer than them, more, and none
    (
        "6 10000",
        "99999 C 5",
        "0 10000 C 6;demand passes 999999 in year 1;need not be wider in years 0 to 0;no widening suffices from year 1",
    ),
    (
        "8 10000",
        "99999 C 5",
        "0 10000 B 6;demand passes 999999 in year 1;need not be wider in years 0 to 0;no widening suffices from year 1",
    ),
    ("2 10000", "99999 C 5", "0 10000 F 6;demand passes 999999 in year 1;must be wider in year 0;no widening suffices from year 1"),
    ("2 500000", "1000 C 5", "0 500000 F none;demand passes 999999 in year 1;no widening suffices from year 0"),
    // it is passed after a year with six digits
    (
        "2 1000",
        "99999 C 5",
        "0 1000 A 2;1 100999 F none;demand passes 999999 in year 2;need not be wider in years 0 to 0;no widening suffices from year 1",
    ),
    (
        "2 4000",
        "99999 C 5",
        "0 4000 D 3;1 403996 F none;demand passes 999999 in year 2;must be wider in year 0;no widening suffices from year 1",
    ),
    (
        "2 50000",
        "1000 C 5",
        "0 50000 F none;1 100000 F none;2 200000 F none;3 400000 F none;4 800000 F none;demand passes 999999 in year 5;\
         no widening suffices from year 0",
    ),
    // 99,999 and what comes after it; 999,999 itself has a row, as 999,998.004 rounded up too, and 999,999.99 is past it; a passing after
    // the last year is not told
    ("2 99899", "1 E 2", "0 99899 F none;1 99999 F none;2 100099 F none;no widening suffices from year 0"),
    ("2 999000", "1 E 2", "0 999000 F none;1 999999 F none;demand passes 999999 in year 2;no widening suffices from year 0"),
    ("2 998002", "2 E 2", "0 998002 F none;1 999999 F none;demand passes 999999 in year 2;no widening suffices from year 0"),
    ("2 990099", "10 E 2", "0 990099 F none;demand passes 999999 in year 1;no widening suffices from year 0"),
    ("8 10000", "99999 C 0", "0 10000 B 6;need not be wider in years 0 to 0"),
    // the greatest numbers; products just above 2^32 and 23 times 2^32
    ("8 999999", "99999 E 99999", "0 999999 F none;demand passes 999999 in year 1;no widening suffices from year 0"),
    ("8 99999", "99999 E 99999", "0 99999 F none;demand passes 999999 in year 1;no widening suffices from year 0"),
    ("8 42525", "99999 E 1", "0 42525 F none;demand passes 999999 in year 1;no widening suffices from year 0"),
    ("8 978072", "99999 E 1", "0 978072 F none;demand passes 999999 in year 1;no widening suffices from year 0"),
];

const MULTILANE: [Table; 3] = [
    ("2 3064", "250 C 2", "0 3064 C 2;1 3830 E 3;2 4788 F none;must be wider in year 1;no widening suffices from year 2"),
    ("3 4500", "20 C 2", "0 4500 C 3;1 4590 C 3;2 4682 D none;need not be wider in years 0 to 1;no widening suffices from year 2"),
    ("3 4597", "0 C 0", "0 4597 D none;no widening suffices from year 0"),
];

const SNOW: [Table; 2] = [
    ("2 3000", "100 C 2", "0 3000 C 2;1 3300 D 3;2 3630 D 3;must be wider in year 1"),
    ("8 13176", "1 C 1", "0 13176 C 8;1 13190 D none;need not be wider in years 0 to 0;no widening suffices from year 1"),
];

// CALL-4, ORDER-2: lines with the fields parted by blanks, and the refusal of each.
const REFUSED: [(&str, u32); 19] = [
    ("F G 29999 120 60 60 D 0 2 1000 1000 0 L", 1),
    ("F G 75000 99 60 60 D 0 2 1000 1000 0 L", 2),
    ("F G 75000 120 401 60 D 0 2 1000 1000 0 L", 3),
    ("F G 75000 120 60 60 U 0 2 1000 1000 0 L", 4),
    ("F G 75000 120 60 60 D 49 2 1000 1000 0 L", 5),
    ("F G 75000 120 60 60 D 0 9 1000 1000 0 L", 6),
    ("M G 60000 120 60 60 D 0 4 1000 1000 0 L", 6),
    ("F G 75000 120 60 60 D 0 2 1000 249 0 L", 8),
    ("F G 75000 120 60 60 D 0 2 1000 1000 1001 L", 9),
    ("F G 75000 120 60 60 D 0 2 1000 1000 0 L 499 1000", 19),
    ("M G 60000 120 60 60 D 0 2 1000 1000 0 L 1000 999", 19),
    ("F G 54999 120 60 60 D 0 2 1000 1000 0 L", 10),
    ("F G 75000 120 60 60 D 0 2 999999 1000 1001 L", 9),
    ("F G 75000 120 60 60 D 0 2 1000000 1000 0 L", 15),
    ("F G 75000 120 60 60 D 0 2 099999 1000 0 L", 15),
    ("F G 75000 120 60 60 D 0 2 1000 100000 0 L", 15),
    ("F G 75000 120 60 60 D 0 2 1000 1000 0 L 1000", 15),
    ("F G 75000 120 60 60 D 0 2", 15),
    ("", 15),
];

const BAD_NUMBERS: [&str; 8] = ["", "-1", "+1", " 1", "1 ", "1.0", "100000", "x"];
const BAD_LETTERS: [&str; 7] = ["", "F", "a", "@", "3", "AB", "A "];

// A row begins with a digit.
fn printed(line: &str) -> String {
    let row = line.starts_with(|c: char| c.is_ascii_digit());
    (if row { tabbed(line) } else { line.to_string() }) + "\n"
}

fn expect_tables(widening: &Host, road: &str, weather: &str, tables: &[Table]) {
    for (load, plan, lines) in tables {
        let section = tabbed(&format!("{road} {load} 1000 0 L{weather}"));
        let arguments: Vec<&str> = [section.as_str()].into_iter().chain(plan.split(' ')).collect();
        let expected: String = lines.split(';').map(printed).collect();
        widening.expect(&format!("{road} {load}{weather}, {plan}"), &widening.run(&arguments, b""), 0, &format!("{HEADER}{expected}"), "");
    }
}

// A hundred thousand rows.
fn expect_most_years(widening: &Host, line: &str) {
    let rows: String = (0..=99_999).map(|year| format!("{year}\t0\tA\t2\n")).collect();
    let expected = format!("{HEADER}{rows}need not be wider in years 0 to 99999\n");
    let got = widening.run(&[line, "30", "A", "99999"], b"");
    if got.stdout != expected.as_bytes() || !got.stderr.is_empty() || !got.status.success() {
        widening.fail("the most years: another output, message or status");
    }
}

fn expect_example(widening: &Host) {
    let sections = widening.read("examples/sections.tsv");
    let line = sections.lines().next().unwrap_or("");
    widening.expect("the example", &widening.run(&[line, "30", "C", "12"], b""), 0, &widening.read("examples/widening.out"), "");
}

fn expect_refusals(widening: &Host) {
    for (line, number) in REFUSED {
        let got = widening.run(&[&tabbed(line), "30", "C", "12"], b"");
        widening.expect(line, &got, 1, "", &format!("widening: the section is refused with {number}\n"));
    }
}

fn expect_usage(widening: &Host, arguments: &[&str]) {
    widening.expect(&format!("{arguments:?}"), &widening.run(arguments, b""), 2, "", USAGE);
}

fn expect_bad_arguments(widening: &Host, line: &str) {
    let right = [line, "30", "C", "12", "12"];
    for count in [0, 1, 2, 3, 5] {
        expect_usage(widening, &right[..count]);
    }
    for bad in BAD_NUMBERS {
        expect_usage(widening, &[line, bad, "C", "12"]);
        expect_usage(widening, &[line, "30", "C", bad]);
    }
    for bad in BAD_LETTERS {
        expect_usage(widening, &[line, "30", bad, "12"]);
    }
    expect_usage(widening, &["", "30", "F", "12"]);
}

// A short output is lost when it is closed, a long one before. Where nothing is printed, nothing is lost.
fn expect_lost_output(widening: &Host, line: &str) {
    for years in ["0", "99999"] {
        widening.expect("a full output", &widening.run_with_full_output(&[line, "0", "C", years], b""), 3, "", NOT_WRITTEN);
    }
    widening.expect("a closed output", &widening.run_with_closed_output(&[line, "0", "C", "0"], b""), 3, "", NOT_WRITTEN);
    let refused = widening.run_with_full_output(&["", "0", "C", "0"], b"");
    widening.expect("a full output, a line refused", &refused, 1, "", "widening: the section is refused with 15\n");
    widening.expect("a full output, no arguments", &widening.run_with_full_output(&[], b""), 2, "", USAGE);
}

fn main() {
    let widening = Host::new("widening");
    let empty_road = tabbed("F G 75000 120 60 60 D 0 2 0 1000 0 L");
    expect_example(&widening);
    expect_tables(&widening, "F G 75000 120 60 60 D 0", "", &FREEWAY);
    expect_tables(&widening, "F G 75000 120 60 60 D 0", " 950 900", &SNOW);
    expect_tables(&widening, "M G 60000 120 60 60 D 0", "", &MULTILANE);
    expect_most_years(&widening, &empty_road);
    expect_refusals(&widening);
    expect_bad_arguments(&widening, &empty_road);
    expect_lost_output(&widening, &empty_road);
    let tables = FREEWAY.len() + SNOW.len() + MULTILANE.len() + 2;
    println!("widening: {tables} tables, {} refused lines, bad arguments, lost output: all as expected", REFUSED.len());
}
