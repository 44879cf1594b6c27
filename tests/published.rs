// FIGURE-1: compares the answers of the program los with figures that others published, at the project's root; its path is the argument.
//   br101.tsv          FFS-5, CURVE-5: nine sections of a multilane highway, worked out with another program; F given, and F estimated
//   service_flows.tsv  VOLUME-2: 25 maximum service flows of freeways
//   section_5001.tsv   ANSWER-1: a freeway section, worked out figure by figure
//   sections.tsv       ANSWER-1: freeway sections of a practical application
// The headers of these files, in tests/published, say who printed the figures and where, how they are converted and how near an answer must
// come.
// It is wrong, and the run fails, when
//   - a converted column is not what the published one converts to;
//   - a figure is outside its tolerance and not marked, or marked and not outside;
//   - the cause of a mark does not account for the difference, or one does and the mark says unexplained;
//   - a section of the multilane highway is answered otherwise with its F estimated than with it given;
//   - the source's own steps, worked out anew, do not give the figures it prints (sections.tsv, section_5001.tsv).

use std::collections::BTreeMap;
use std::io::Write;
use std::process::{exit, Command, Stdio};

const FOLDER: &str = "tests/published";

// An answer's fields, in its units; a letter is its byte.
const FIGURES: usize = 11;
const NAMES: [&str; FIGURES] = ["letter", "F", "c", "v", "speed", "density", "A", "B", "C", "D", "E"];
type Figures = [Option<i64>; FIGURES];

// The least and the greatest that our figure may be above the published one.
const TOLERANCES: [(i64, i64); FIGURES] =
    [(0, 0), (-60, 60), (-99, 99), (0, 1), (-60, 60), (0, 0), (-10, 10), (-10, 10), (-10, 10), (-10, 10), (-10, 10)];

// Of every line of the sections' files: base speed, peak-hour factor, share of the busier direction in hundredths.
const BASE_SPEED: i64 = 75_400;
const FACTOR: i64 = 940;
const DIRECTION: i64 = 55;

// A mile is 1.609344 km.
const MILE: i128 = 1_609_344;
const MILLION: i128 = 1_000_000;

// The figures that differ, each with its cause; without one: unexplained.
type Marks = BTreeMap<usize, Option<Cause>>;

struct Row {
    name: String,
    line: String,
    published: Figures,
    marks: Marks,
    section: Option<Section>,
    faults: Vec<String>,
}

// The causes of differences, each explained in sections.tsv with its rule.
#[derive(Clone, Copy, PartialEq)]
enum Cause {
    Whole,
    Share,
    Ramps,
    Clearance,
    Capacity,
    Shown,
    Limit,
}

const CAUSES: [(&str, Cause); 7] = [
    ("whole", Cause::Whole),
    ("share", Cause::Share),
    ("ramps", Cause::Ramps),
    ("clearance", Cause::Clearance),
    ("capacity", Cause::Capacity),
    ("shown", Cause::Shown),
    ("limit", Cause::Limit),
];

impl Cause {
    fn name(self) -> &'static str {
        CAUSES.iter().find(|(_, cause)| *cause == self).map_or("", |(name, _)| name)
    }
}

fn fail(what: &str) -> ! {
    println!("published: {what}");
    exit(1);
}

// A number as printed, exactly: digits / unit.
#[derive(Clone, Copy)]
struct Decimal {
    digits: i128,
    unit: i128,
}

impl Decimal {
    fn read(text: &str) -> Decimal {
        let (whole, rest) = text.split_once(',').unwrap_or((text, ""));
        let digits = format!("{whole}{rest}");
        if digits.len() > 15 || !digits.bytes().all(|b| b.is_ascii_digit()) {
            fail(&format!("not a number: {text}"));
        }
        let digits = digits.parse().unwrap_or_else(|_| fail(&format!("not a number: {text}")));
        Decimal { digits, unit: 10_i128.pow(rest.len() as u32) }
    }

    // Times a / b, rounded up.
    fn up(self, a: i128, b: i128) -> i64 {
        ((self.digits * a + self.unit * b - 1) / (self.unit * b)) as i64
    }

    // Times a / b, to the nearest.
    fn nearest(self, a: i128, b: i128) -> i64 {
        ((2 * self.digits * a + self.unit * b) / (2 * self.unit * b)) as i64
    }

    // Times a, which must be whole.
    fn whole(self, a: i128) -> i64 {
        if self.digits * a % self.unit != 0 {
            fail(&format!("{}/{} has more digits than expected", self.digits, self.unit));
        }
        (self.digits * a / self.unit) as i64
    }

    fn real(self) -> f64 {
        self.digits as f64 / self.unit as f64
    }
}

fn rows_of(file: &str) -> Vec<Vec<String>> {
    let path = format!("{FOLDER}/{file}");
    let text = std::fs::read_to_string(&path).unwrap_or_else(|error| fail(&format!("{path}: {error}")));
    text.lines().filter(|line| !line.starts_with('#')).map(fields).collect()
}

fn fields(line: &str) -> Vec<String> {
    line.split('\t').map(str::to_string).collect()
}

fn letter(text: &str) -> Option<i64> {
    match text.as_bytes() {
        [letter @ b'A'..=b'F'] => Some(i64::from(*letter)),
        _ => None,
    }
}

fn published_letter(text: &str) -> Option<i64> {
    letter(text).or_else(|| fail(&format!("not a letter: {text}")))
}

fn display(figure: usize, value: i64) -> String {
    if figure == 0 {
        char::from(value as u8).to_string()
    } else {
        value.to_string()
    }
}

// The faults of converted columns, given what they should be.
fn faults_of(converted: &[String], expected: &[String]) -> Vec<String> {
    if converted == expected {
        return Vec::new();
    }
    vec![format!("converted {}, should be {}", converted.join(" "), expected.join(" "))]
}

fn texts(figures: &[Option<i64>]) -> Vec<String> {
    figures.iter().map(|figure| figure.map_or("-".to_string(), |value| value.to_string())).collect()
}

fn columns<const N: usize>(file: &str, row: Vec<String>) -> [String; N] {
    row.try_into().unwrap_or_else(|row: Vec<String>| fail(&format!("{file}: {} columns, not {N}: {}", row.len(), row.join(" "))))
}

// br101.tsv

// Of each section a row with F given and one with F estimated.
fn br101() -> Vec<Row> {
    rows_of("br101.tsv").into_iter().flat_map(|row| br101_rows(&columns::<43>("br101.tsv", row))).collect()
}

fn br101_rows(row: &[String; 43]) -> [Row; 2] {
    let number = |at: usize| Decimal::read(&row[at]);
    let (access, left) = (number(6).nearest(25, 10) * 100, number(7).whole(1));
    let clearance = match left {
        3 => 650,
        6 => 0,
        _ => fail(&format!("br101.tsv: no left clearance of {left} ft expected")),
    };
    let base = number(5).whole(1000) - access;
    let terrain = match row[3].as_str() {
        "Plano" => "L",
        "Ondulado" => "R",
        terrain => fail(&format!("br101.tsv: unknown terrain {terrain}")),
    };
    let (demand, factor, share) = (number(1).whole(1), number(2).whole(1000), number(4).whole(10));
    let line =
        |way: &str, speed: i64| format!("M\t{way}\t{speed}\t110\t60\t{}\tD\t0\t2\t{demand}\t{factor}\t{share}\t{terrain}", left * 10);
    let mut published = [None; FIGURES];
    published[0] = published_letter(&row[12]);
    published[2] = Some(number(8).whole(100));
    published[3] = Some(number(9).whole(1));
    published[4] = Some(number(10).whole(1000));
    published[5] = Some(number(11).up(10, 1));
    let (given, estimated) = (line("G", base - 1900 - clearance), line("E", base));
    let expected = [texts(&published[2..6]), fields(&given), fields(&estimated)].concat();
    [(given, faults_of(&row[13..], &expected)), (estimated, Vec::new())].map(|(line, faults)| Row {
        name: row[0].clone(),
        line,
        published,
        marks: Marks::new(),
        section: None,
        faults,
    })
}

// FFS-1: whether both rows of each section have one answer.
fn ways_agree(rows: &[Row], answers: &[String]) -> bool {
    let apart: Vec<_> = rows.chunks(2).zip(answers.chunks(2)).filter(|(_, answers)| answers[0] != answers[1]).collect();
    apart.iter().for_each(|(rows, answers)| println!("published: br101.tsv {}: WRONG {}, {}", rows[0].name, answers[0], answers[1]));
    println!("published: br101.tsv: {} sections answered alike with F given and with F estimated", rows.len() / 2 - apart.len());
    apart.is_empty()
}

// service_flows.tsv

fn service_flows() -> Vec<Row> {
    rows_of("service_flows.tsv").into_iter().map(|row| service_flows_row(&columns::<24>("service_flows.tsv", row))).collect()
}

fn service_flows_row(row: &[String; 24]) -> Row {
    let kilometres = Decimal::read(&row[0]).whole(1);
    let in_fives = |speed: i64| Decimal { digits: i128::from(speed), unit: 1000 }.nearest(MILE, 5 * MILLION) * 5;
    let free_flow = [75_000, 70_000, 65_000, 60_000, 55_000].into_iter().find(|&speed| in_fives(speed) == kilometres);
    let free_flow = free_flow.unwrap_or_else(|| fail(&format!("service_flows.tsv: no speed is {kilometres} km/h")));
    let line = format!("F\tG\t{free_flow}\t120\t60\t60\tD\t0\t2\t0\t1000\t0\tL");
    let mut published = [None; FIGURES];
    for (at, flow) in row[1..6].iter().enumerate() {
        published[6 + at] = Some(Decimal::read(flow).whole(2));
    }
    let expected = [texts(&published[6..]), fields(&line)].concat();
    Row { name: row[0].clone(), line, published, marks: Marks::new(), section: None, faults: faults_of(&row[6..], &expected) }
}

// sections.tsv and section_5001.tsv

// Inputs and outputs as published: lengths in cm, ramps per km, speeds in km/h, density per km.
struct Section {
    area: String,
    traffic: i64,
    heavy: Decimal, // %
    lanes: i64,
    width: i64,
    left: i64,
    right: i64,
    ramps: Decimal,
    terrain: String,
    outputs: [String; 5], // F, c, v, speed, density
    letter: String,
}

impl Section {
    // K in hundredths.
    fn peak_share(&self) -> i64 {
        match self.area.as_str() {
            "U" | "S" => 9,
            "I" | "R" => 11,
            area => fail(&format!("unknown area {area}")),
        }
    }

    // Daily traffic x K x direction, exactly.
    fn demand(&self) -> Decimal {
        Decimal { digits: i128::from(self.traffic * self.peak_share() * DIRECTION), unit: 10_000 }
    }

    fn share(&self) -> i64 {
        self.heavy.nearest(10, 1)
    }

    fn ramps_in_six_miles(&self) -> i64 {
        self.ramps.nearest(6 * MILE, MILLION)
    }

    fn truck_equivalent(&self) -> i64 {
        match self.terrain.as_str() {
            "P" => 2,
            "O" => 3,
            terrain => fail(&format!("unknown terrain {terrain}")),
        }
    }

    fn line(&self) -> String {
        let terrain = if self.truck_equivalent() == 2 { "L" } else { "R" };
        let (width, right, left) = (self.width / 3, self.right / 3, self.left / 3);
        let (ramps, demand, share) = (self.ramps_in_six_miles(), self.demand().up(1, 1), self.share());
        format!("F\tE\t{BASE_SPEED}\t{width}\t{right}\t{left}\tD\t{ramps}\t{}\t{demand}\t{FACTOR}\t{share}\t{terrain}", self.lanes)
    }

    fn figures(&self) -> Figures {
        let speed = |number: Decimal| number.nearest(1000 * MILLION, MILE);
        let convert: [fn(Decimal) -> i64; 5] = [speed, |c| c.whole(100), |v| v.up(1, 1), speed, |density| density.up(10 * MILE, MILLION)];
        let mut figures = [None; FIGURES];
        figures[0] = published_letter(&self.letter);
        for (at, output) in self.outputs.iter().enumerate() {
            figures[1 + at] = match output.as_str() {
                "-" => None,
                "N/A" => Some(0),
                number => Some(convert[at](Decimal::read(number))),
            };
        }
        figures
    }

    fn row(self, name: &str, differs: &str, mut faults: Vec<String>) -> Row {
        faults.extend(self.misprints());
        Row { name: name.to_string(), line: self.line(), published: self.figures(), marks: marks_of(differs), section: Some(self), faults }
    }

    // The outputs that the source's steps do not give as they are printed.
    fn misprints(&self) -> Vec<String> {
        let steps = Steps::of(self, None);
        let mut wrong = Vec::new();
        for (at, output) in self.outputs.iter().enumerate() {
            let value = [Some(steps.free_flow), Some(steps.capacity), Some(steps.flow), steps.speed, steps.density][at];
            let agrees = match (output.as_str(), value) {
                ("-", _) | ("N/A", None) => true,
                ("N/A", Some(_)) | (_, None) => false,
                (number, Some(value)) => {
                    let number = Decimal::read(number);
                    (value - number.real()).abs() <= 0.500_001 / number.unit as f64
                }
            };
            if !agrees {
                wrong.push(format!("{} {output} is not what the source's steps give: {value:?}", NAMES[1 + at]));
            }
        }
        if steps.letter() != self.letter {
            wrong.push(format!("letter {} is not what the source's steps give: {}", self.letter, steps.letter()));
        }
        wrong
    }

    // How far ours is from the source's figure, with the method's way in the place of the step that the cause names.
    fn left(&self, cause: Cause, figure: usize, ours: i64) -> i64 {
        ours - Steps::of(self, Some(cause)).figures(cause)[figure]
    }

    // The causes that account for a difference: they bring the source's figure within tolerance, and no other one brings it nearer.
    fn causes(&self, figure: usize, ours: i64) -> Vec<Cause> {
        let left = CAUSES.map(|(_, cause)| (cause, self.left(cause, figure, ours)));
        let least = left.iter().map(|(_, left)| left.abs()).min();
        left.into_iter().filter(|(_, left)| within(figure, *left) && Some(left.abs()) == least).map(|(cause, _)| cause).collect()
    }
}

// What the source's steps give, in kilometres, before it is rounded to be printed. Above capacity there is neither speed nor density.
struct Steps {
    free_flow: f64,
    capacity: f64,
    flow: f64,
    speed: Option<f64>,
    density: Option<f64>,
}

impl Steps {
    // The source's equations E1, E2, E3, E5, E7, E8 and E9, with its factor 1.609.
    fn of(section: &Section, cause: Option<Cause>) -> Steps {
        let ramps = match cause {
            Some(Cause::Ramps) => section.ramps_in_six_miles() as f64 / 6.0,
            _ => section.ramps.real() * 1.609,
        };
        let clearance = match cause {
            Some(Cause::Clearance) => by_tenths(section.right, section.lanes),
            _ => clearance_takes(section.right, section.lanes),
        };
        let free_flow = 121.3 - width_takes(section.width) - clearance - 3.22 * ramps.powf(0.84) * 1.609;
        let capacity = (2200.0 + 10.0 * (free_flow / 1.609 - 50.0)).min(2400.0);
        let breakpoint = 1000.0 + 40.0 * (75.0 - free_flow / 1.609);
        let flow = flow_of(section, cause);
        let at_capacity = if cause == Some(Cause::Capacity) { 45.0 * MILLION as f64 / MILE as f64 } else { 28.0 };
        let loss = ((flow - breakpoint).max(0.0) / (capacity - breakpoint)).powi(2);
        let speed = (flow <= capacity).then(|| free_flow - (free_flow - capacity / at_capacity) * loss);
        Steps { free_flow, capacity, flow, speed, density: speed.map(|speed| flow / speed) }
    }

    // The source's table 4.
    fn letter(&self) -> &'static str {
        match self.density {
            Some(density) => ["A", "B", "C", "D", "E", "F"][[7.0, 11.0, 16.0, 22.0, 28.0].iter().filter(|&&limit| density > limit).count()],
            None => "F",
        }
    }

    // The figures that the source has, as it prints them and then converted; not printed first for the cause that is the printing.
    fn figures(&self, cause: Cause) -> [i64; 6] {
        let printed = |value: f64, unit: i128| {
            let unit = if cause == Cause::Shown { 1_000_000_000 } else { unit };
            Decimal { digits: (value * unit as f64).round() as i128, unit }
        };
        let speed = |value: f64| printed(value, 10).nearest(1000 * MILLION, MILE);
        let density = self.density.map_or(0, |value| printed(value, 100).up(10 * MILE, MILLION));
        let letter = match cause {
            Cause::Limit if self.density.is_some() => letter_of(density),
            _ => i64::from(self.letter().as_bytes()[0]),
        };
        let (capacity, flow) = (printed(self.capacity, 1).nearest(100, 1), printed(self.flow, 100).up(1, 1));
        [letter, speed(self.free_flow), capacity, flow, self.speed.map_or(0, speed), density]
    }
}

// The source's table 6.
fn width_takes(width: i64) -> f64 {
    match width {
        375.. => 0.0,
        350..=374 => 3.0,
        _ => fail(&format!("no width of {width} cm expected")),
    }
}

// The source's table 7, as far as its sections need it.
fn clearance_takes(right: i64, lanes: i64) -> f64 {
    match (right, lanes) {
        (200.., _) => 0.0,
        (150, 2) => 1.0,
        (100, 2) => 2.9,
        (100, 3) => 1.9,
        _ => fail(&format!("no clearance of {right} cm with {lanes} lanes expected")),
    }
}

// FFS-4, in the place of table 7: 0.06, 0.04, 0.02 or 0.01 mi/h for each tenth of a foot short of 6 feet.
fn by_tenths(right: i64, lanes: i64) -> f64 {
    let missing = 60 - (right / 3).min(60);
    let per_tenth = [0.06, 0.04, 0.02, 0.01][lanes.min(5) as usize - 2];
    missing as f64 * per_tenth * 1.609
}

fn flow_of(section: &Section, cause: Option<Cause>) -> f64 {
    let demand = section.demand();
    let demand = if cause == Some(Cause::Whole) { Decimal { digits: i128::from(demand.up(1, 1)), unit: 1 } } else { demand };
    let share = if cause == Some(Cause::Share) { section.share() * 10 } else { section.heavy.whole(100) };
    let cars = i128::from(10_000 + share * (section.truck_equivalent() - 1));
    let places = i128::from(10 * FACTOR * section.lanes);
    match cause {
        Some(Cause::Whole) => demand.up(cars, places) as f64,
        _ => demand.real() * cars as f64 / places as f64,
    }
}

// LETTER-1: the manual's limits, for a density in tenths.
fn letter_of(density: i64) -> i64 {
    let above = [110, 180, 260, 350, 450].iter().filter(|&&limit| density > limit).count();
    i64::from(b'A') + above as i64
}

// Reads figure:cause,figure:cause..
fn marks_of(differs: &str) -> Marks {
    let mut marks = Marks::new();
    for mark in differs.split(',').filter(|mark| *mark != "-") {
        let (name, cause) = mark.split_once(':').unwrap_or((mark, ""));
        let figure = NAMES.iter().position(|known| *known == name);
        let known = CAUSES.iter().find(|(known, _)| *known == cause).map(|(_, cause)| *cause);
        match figure {
            Some(figure) if (known.is_some() || cause == "unexplained") && !marks.contains_key(&figure) => marks.insert(figure, known),
            _ => fail(&format!("unknown or repeated mark {mark}")),
        };
    }
    marks
}

fn sections() -> Vec<Row> {
    rows_of("sections.tsv").into_iter().map(|row| sections_row(&columns::<35>("sections.tsv", row))).collect()
}

fn sections_row(row: &[String; 35]) -> Row {
    let number = |at: usize| Decimal::read(&row[at]).whole(1);
    let section = Section {
        area: row[1].clone(),
        traffic: number(2),
        heavy: Decimal::read(&row[3]),
        lanes: number(4),
        width: number(5),
        left: number(6),
        right: number(7),
        ramps: Decimal::read(&row[8]),
        terrain: row[9].clone(),
        outputs: std::array::from_fn(|at| row[10 + at].clone()),
        letter: row[15].clone(),
    };
    let expected = [texts(&section.figures()[1..6]), fields(&section.line())].concat();
    section.row(&row[0], &row[16], faults_of(&row[17..], &expected))
}

// One section, a figure a row: its name, what is published, its unit, what it converts to.
fn section_5001() -> Vec<Row> {
    let rows: Vec<[String; 5]> = rows_of("section_5001.tsv").into_iter().map(|row| columns("section_5001.tsv", row)).collect();
    let named: BTreeMap<&str, &[String; 5]> = rows.iter().map(|row| (row[1].as_str(), row)).collect();
    let row = |name: &str| *named.get(name).unwrap_or_else(|| fail(&format!("section_5001.tsv: no {name}")));
    let number = |name: &str| Decimal::read(&row(name)[2]);
    let text = |name: &str| row(name)[2].clone();
    let section = Section {
        area: text("area"),
        traffic: number("traffic").whole(1),
        heavy: number("heavy"),
        lanes: number("lanes").whole(1),
        width: number("width").whole(100),
        left: 0,
        right: number("right").whole(100),
        ramps: number("ramps"),
        terrain: text("terrain"),
        outputs: ["F", "c", "v", "speed", "density"].map(text),
        letter: text("letter"),
    };
    let line = section.line();
    let field = |at: usize| line.split('\t').nth(at).unwrap_or_default().to_string();
    let figures = texts(&section.figures());
    let expected = [
        [("area", "-".to_string()), ("traffic", "-".to_string()), ("k", "-".to_string()), ("D", "-".to_string())].to_vec(),
        [("BFFS", 2), ("width", 3), ("right", 4), ("ramps", 7), ("lanes", 8), ("V", 9)].map(|(name, at)| (name, field(at))).to_vec(),
        [("PHF", 10), ("heavy", 11), ("terrain", 12)].map(|(name, at)| (name, field(at))).to_vec(),
        [("F", 1), ("c", 2), ("v", 3), ("speed", 4), ("density", 5)].map(|(name, at)| (name, figures[at].clone())).to_vec(),
        [("letter", section.letter.clone())].to_vec(),
    ]
    .concat();
    let (names, expected): (Vec<&str>, Vec<String>) = expected.into_iter().unzip();
    let mut faults = faults_of(&names.iter().map(|name| row(name)[4].clone()).collect::<Vec<_>>(), &expected);
    let constants = [
        ("k", number("k").whole(100) == section.peak_share()),
        ("D", number("D").whole(100) == DIRECTION),
        ("PHF", number("PHF").whole(1000) == FACTOR),
        ("V", number("V").whole(100) == section.demand().nearest(100, 1)),
        ("BFFS", number("BFFS").nearest(10, 1) == Decimal { digits: i128::from(BASE_SPEED), unit: 1000 }.nearest(10 * MILE, MILLION)),
        ("the count of rows", rows.len() == names.len()),
    ];
    faults.extend(constants.iter().filter(|(_, holds)| !holds).map(|(name, _)| format!("{name} is not what was expected")));
    vec![section.row("5001", "-", faults)]
}

// The comparison

fn within(figure: usize, difference: i64) -> bool {
    let (least, greatest) = TOLERANCES[figure];
    (least..=greatest).contains(&difference)
}

fn answers(los: &str, rows: &[Row]) -> Vec<String> {
    let started = Command::new(los).stdin(Stdio::piped()).stdout(Stdio::piped()).spawn();
    let mut child = started.unwrap_or_else(|error| fail(&format!("{los}: {error}")));
    let input: String = rows.iter().map(|row| format!("{}\n", row.line)).collect();
    let written = child.stdin.take().expect("piped").write_all(input.as_bytes());
    written.unwrap_or_else(|error| fail(&format!("{los}: {error}")));
    let output = child.wait_with_output().unwrap_or_else(|error| fail(&format!("{los}: {error}")));
    let answers: Vec<String> = String::from_utf8_lossy(&output.stdout).lines().map(str::to_string).collect();
    if !output.status.success() || answers.len() != rows.len() {
        fail(&format!("{los}: {}, {} answers to {} lines", output.status, answers.len(), rows.len()));
    }
    answers
}

fn figures_of(answer: &str) -> Option<[i64; FIGURES]> {
    let fields: Vec<&str> = answer.split('\t').collect();
    let mut figures = [0; FIGURES];
    if fields.len() != FIGURES {
        return None;
    }
    figures[0] = letter(fields[0])?;
    for at in 1..FIGURES {
        figures[at] = fields[at].parse().ok()?;
    }
    Some(figures)
}

#[derive(Default)]
struct Counts {
    figures: usize,
    equal: usize,
    explained: usize,
    unexplained: usize,
    wrong: usize,
}

// Compares one row, and says each figure outside its tolerance and each fault.
fn compare(file: &str, row: &Row, answer: &str, counts: &mut Counts) {
    let say = |what: &str| println!("published: {file} {}: {what}", row.name);
    let Some(ours) = figures_of(answer) else {
        counts.wrong += 1;
        return say(&format!("{} is answered {answer}", row.line.replace('\t', " ")));
    };
    let mut wrong: Vec<String> = row.faults.clone();
    let mut unexplained = false;
    for figure in 0..FIGURES {
        let mark = row.marks.get(&figure);
        let Some(published) = row.published[figure] else {
            if mark.is_some() {
                wrong.push(format!("{} is marked and not published", NAMES[figure]));
            }
            continue;
        };
        counts.figures += 1;
        let difference = format!("{} published {}, ours {}", NAMES[figure], display(figure, published), display(figure, ours[figure]));
        match (within(figure, ours[figure] - published), mark) {
            (true, None) => {}
            (true, Some(_)) => wrong.push(format!("{difference}: marked, and within its tolerance")),
            (false, None) => wrong.push(format!("{difference}: outside its tolerance, and not marked")),
            (false, Some(mark)) => {
                let causes = row.section.as_ref().map_or(Vec::new(), |section| section.causes(figure, ours[figure]));
                match mark {
                    Some(cause) if causes.contains(cause) => say(&format!("{difference}: {}", cause.name())),
                    Some(cause) => wrong.push(format!("{difference}: {} does not account for it", cause.name())),
                    None if causes.is_empty() => {
                        unexplained = true;
                        say(&format!("{difference}: unexplained"));
                    }
                    None => wrong.push(format!("{difference}: not unexplained, {} accounts for it", causes[0].name())),
                }
            }
        }
    }
    wrong.iter().for_each(|what| say(&format!("WRONG {what}")));
    match (wrong.is_empty(), row.marks.is_empty(), unexplained) {
        (false, _, _) => counts.wrong += 1,
        (true, true, _) => counts.equal += 1,
        (true, false, false) => counts.explained += 1,
        (true, false, true) => counts.unexplained += 1,
    }
}

// Compares a file of so many rows with their answers; whether nothing is wrong.
fn compare_file(file: &str, rows: &[Row], answers: &[String], expected: usize) -> bool {
    let mut counts = Counts::default();
    for (row, answer) in rows.iter().zip(answers) {
        compare(file, row, answer, &mut counts);
    }
    let Counts { figures, equal, explained, unexplained, wrong } = counts;
    let wrongly = if wrong == 0 { String::new() } else { format!(", WRONG {wrong}") };
    println!(
        "published: {file}: rows {}, equal {equal}, explained {explained}, unexplained {unexplained}{wrongly}; figures {figures}",
        rows.len()
    );
    if rows.len() != expected {
        println!("published: {file}: WRONG {} rows, not {expected}", rows.len());
    }
    wrong == 0 && rows.len() == expected
}

fn main() {
    let Some(los) = std::env::args().nth(1) else { fail("usage: published PATH-OF-LOS") };
    let files = [
        ("br101.tsv", br101(), 18),
        ("service_flows.tsv", service_flows(), 5),
        ("section_5001.tsv", section_5001(), 1),
        ("sections.tsv", sections(), 121),
    ];
    let mut right = true;
    for (file, rows, expected) in &files {
        let answers = answers(&los, rows);
        right &= compare_file(file, rows, &answers, *expected);
        right &= *file != "br101.tsv" || ways_agree(rows, &answers);
    }
    if !right {
        exit(1);
    }
}
