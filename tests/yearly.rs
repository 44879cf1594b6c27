// CALL-8: checks the example host examples/yearly.c, at the project's root; the path of the built program is the argument.
//   - status 0: the example's output, which is also worked out by the second implementation, for every target; refused sections;
//   - status 1: a row that is no section, with its number, after the row before it; a list that can't be read;
//   - status 2: bad arguments of each kind;
//   - status 3: an output that can't be written.

mod host;
#[allow(dead_code)]
mod second;

use host::{tabbed, Host};
use second::daily::{daily, hourly_demand, FIGURES};
use second::lines::letter_name;
use second::method::Method;

const USAGE: &str = "usage: yearly LETTER < LIST\nLETTER: A to E; LIST: rows of name, U or R, daily traffic and a section's line\n";
const BAD_ROW: &str = "yearly: row 2 is not a name, U or R, a daily traffic and a section's line\n";
const NOT_WRITTEN: &str = "yearly: standard output can't be written\n";
const NOT_READ: &str = "yearly: the list can't be read\n";
const ROAD: &str = "F G 75000 120 60 60 D 0 2 0 1000 0 L";

// DAILY-1 to DAILY-3, REFUSAL-7, REFUSAL-21: of a road of F = 75,000 with two lanes, H = 1,000 and P = 0, whose service volume of C is 3,552 an hour:
// what stands before its line, and its row. 71,757 × 0.0495 = 3,551.97; 58,710 × 0.0605 = 3,551.96; 2,020,181 × 0.0495 = 99,998.96;
// 2,020,202 × 0.0495 = 99,999.999; 20,202,000 × 0.0495 = 999,999; 16,528,909 × 0.0605 = 999,998.99.
const ROWS: [(&str, &str); 13] = [
    ("town U 71757", "town 71757 3552 C 71757"),
    ("town U 71758", "town 71758 3553 D 71757"),
    ("land R 58710", "land 58710 3552 C 58710"),
    ("land R 58711", "land 58711 3553 D 58710"),
    ("empty R 0", "empty 0 0 A 58710"),
    ("five U 2020181", "five 2020181 99999 F 71757"),
    ("six U 2020202", "six 2020202 100000 F 71757"),
    ("last U 20202000", "last 20202000 999999 F 71757"),
    ("past U 20202001", "past 20202001 X 7"),
    ("last R 16528909", "last 16528909 999999 F 58710"),
    ("past R 16528910", "past 16528910 X 7"),
    ("most U 4000000000", "most 4000000000 X 7"),
    ("more U 4000000001", "more 4000000001 X 21"),
];

// DAILY-6: lines with the fields parted by blanks, and the refusal of each.
const REFUSED: [(&str, u32); 4] = [
    ("F G 29999 120 60 60 D 0 2 0 1000 0 L", 1),
    ("F G 75000 120 60 60 D 0 2 0 249 0 L", 8),
    ("F G 54999 120 60 60 D 0 2 0 1000 0 L", 10),
    ("F G 75000 120 60 60 D 0 2 0 1000 0 L 1000", 15),
];

// What may not stand before a line.
const BAD_STARTS: [&str; 9] = ["", "a", "a U", "a u 5", "a UU 5", "a  5", "a U ", "a U 5x", "a R 40000000000"];
const BAD_LETTERS: [&str; 7] = ["", "F", "a", "@", "3", "AB", "A "];

fn header(target: char) -> String {
    format!("section\tdaily\thourly\tletter\tvolume of {target}\n")
}

fn row(start: &str, line: &str) -> String {
    tabbed(&format!("{start} {line}\n"))
}

// A row of the table by the second implementation.
fn worked_out(method: &Method, row: &str, target: u32) -> Option<String> {
    let fields: Vec<&str> = row.splitn(4, '\t').collect();
    let [name, road, traffic, line] = fields[..] else { return None };
    let (daily_traffic, peak_share) = (traffic.parse().ok()?, if road == "U" { 90 } else { 110 });
    let mut figures = [0; FIGURES];
    let result = daily(method, line.as_bytes(), daily_traffic, peak_share, 550, &mut figures);
    let answer = if result < 0 {
        format!("X\t{}", -result)
    } else {
        let hourly = hourly_demand(daily_traffic, u64::from(peak_share), 550);
        format!("{hourly}\t{}\t{}", letter_name(figures[0] as u32), figures[10 + target as usize])
    };
    Some(format!("{name}\t{traffic}\t{answer}\n"))
}

fn expect_example(yearly: &Host) {
    let (list, method) = (yearly.read("examples/yearly.tsv"), Method::new());
    yearly.expect("the example", &yearly.run(&["C"], list.as_bytes()), 0, &yearly.read("examples/yearly.out"), "");
    for (number, target) in (1..).zip("ABCDE".chars()) {
        let rows: Option<String> = list.lines().map(|row| worked_out(&method, row, number)).collect();
        let Some(rows) = rows else { yearly.fail("examples/yearly.tsv has a row that is no section") };
        let got = yearly.run(&[&target.to_string()], list.as_bytes());
        yearly.expect(&format!("the example for {target}"), &got, 0, &(header(target) + &rows), "");
    }
}

fn expect_rows(yearly: &Host) {
    let list: String = ROWS.iter().map(|(start, _)| row(start, ROAD)).collect();
    let rows: String = ROWS.iter().map(|(_, row)| tabbed(row) + "\n").collect();
    yearly.expect("rows", &yearly.run(&["C"], list.as_bytes()), 0, &(header('C') + &rows), "");
    // The last row may lack its newline.
    yearly.expect("no newline", &yearly.run(&["C"], list.trim_end().as_bytes()), 0, &(header('C') + &rows), "");
    yearly.expect("no row", &yearly.run(&["C"], b""), 0, &header('C'), "");
    for (line, number) in REFUSED {
        let got = yearly.run(&["C"], row("a U 5", line).as_bytes());
        yearly.expect(line, &got, 0, &format!("{}a\t5\tX\t{number}\n", header('C')), "");
    }
}

fn expect_bad_rows(yearly: &Host) {
    let (sound, printed) = (row(ROWS[0].0, ROAD), header('C') + &tabbed(ROWS[0].1) + "\n");
    let long = row(&format!("{} U 5", "a".repeat(256)), ROAD);
    let bad = BAD_STARTS.iter().map(|start| row(start, ROAD)).chain([long, "\n".to_string()]);
    for bad in bad {
        let got = yearly.run(&["C"], (sound.clone() + &bad + &sound).as_bytes());
        yearly.expect(&bad, &got, 1, &printed, BAD_ROW);
    }
    yearly.expect("a list that can't be read", &yearly.run_reading(".", &["C"]), 1, &header('C'), NOT_READ);
}

fn expect_bad_arguments(yearly: &Host) {
    for arguments in [&[][..], &["C", "C"]] {
        yearly.expect("a count of arguments", &yearly.run(arguments, b""), 2, "", USAGE);
    }
    for letter in BAD_LETTERS {
        yearly.expect(letter, &yearly.run(&[letter], b""), 2, "", USAGE);
    }
}

// An output is lost when it is closed, whatever the list is.
fn expect_lost_output(yearly: &Host) {
    for list in [row(ROWS[0].0, ROAD), "bad\n".to_string()] {
        yearly.expect("a full output", &yearly.run_with_full_output(&["C"], list.as_bytes()), 3, "", NOT_WRITTEN);
        yearly.expect("a closed output", &yearly.run_with_closed_output(&["C"], list.as_bytes()), 3, "", NOT_WRITTEN);
    }
}

fn main() {
    let yearly = Host::new("yearly");
    expect_example(&yearly);
    expect_rows(&yearly);
    expect_bad_rows(&yearly);
    expect_bad_arguments(&yearly);
    expect_lost_output(&yearly);
    let rows = ROWS.len() + REFUSED.len();
    println!("yearly: the example for 5 targets, {rows} rows, bad rows, bad arguments, lost output: all as expected");
}
