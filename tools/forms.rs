// Checks, at the project's root, that the forms that docs/METHOD.md promises of the code (FORM-1 to FORM-10) stand at their places. A proof holds
// whatever form a body has, so that no contract would see one go.
//
// A row of FORMS is a rule, a file, the beginning of an item's first line, and texts that stand in the item, in this order, lines of comment
// taken out. An item goes on to the first line that is indented as its first one and ends a block.
//
// It first tries itself on a file of its own.

mod tree;

use std::process::exit;
use tree::{indent, Tree};

struct Form {
    rule: &'static str,
    file: &'static str,
    item: &'static str,
    texts: &'static [&'static str],
}

const fn form(rule: &'static str, file: &'static str, item: &'static str, texts: &'static [&'static str]) -> Form {
    Form { rule, file, item, texts }
}

const CALLS: &str = "crates/marehour/src/calls.rt";
const SURVEY: &str = "crates/survey/src/lib.rt";
const KIND: &str = "crates/curve/src/kind.rt";
const ENDS: [&str; 6] = [
    "pub const LOWEST_SPEED:",
    "pub const HIGHEST_SPEED:",
    "pub const FEWEST_LANES:",
    "pub const MOST_LANES:",
    "pub const LOWEST_CAPACITY:",
    "pub const HIGHEST_CAPACITY:",
];

const FORMS: [Form; 15] = [
    form("FORM-1", CALLS, "pub extern \"C\" fn marehour_answer(", &["line: &[u8]", "answer: &mut [u8]"]),
    form("FORM-1", CALLS, "pub extern \"C\" fn marehour_lanes(", &["line: &[u8]", "answer: &mut [u8]"]),
    form("FORM-2", SURVEY, "fn speed_of_float(x: f32,", &["ensures { result ≡ speed_answer (rounded_in unit x) }", "x.to_bits()"]),
    form("FORM-2", SURVEY, "fn speed_of_bits(bits: u64,", &["bits / LEADING", "bits % LEADING"]),
    form("FORM-3", SURVEY, "pub struct Survey {", &["pub speed: SurveyedSpeed,", "pub cars: u64,", "pub flow: FlowRate,\n}"]),
    form("FORM-3", SURVEY, "pub fn surveyed_speed(survey: Survey)", &[]),
    form("FORM-4", "crates/replies/src/write.rt", "pub fn answer_line(", &["let Ok(case) = read else {", "evaluate::evaluate(case)"]),
    form(
        "FORM-5",
        "crates/road/src/adjustment.rt",
        "pub(crate) fn lane_width_adjustment(",
        &["match self.lane_width {", "0..=109", "110..=119"],
    ),
    form("FORM-5", "crates/curve/src/service.rt", "fn of_density(", &["match density {", "..=110", "..=180", "..=260", "..=350", "..=450"]),
    form("FORM-6", "crates/curve/src/power_table.rt", "pub(crate) static POWERS: [u32; 1001]", &[]),
    form("FORM-7", KIND, "impl Freeway {", &ENDS),
    form("FORM-7", KIND, "impl Multilane {", &ENDS),
    form("FORM-8", "crates/road/src/ramp_table.rt", "pub(crate) static RAMP_TERMS: [u32; 49]", &[]),
    form("FORM-9", SURVEY, "pub enum SurveyedSpeed {", &["{\n    MilesPerHour(f32),\n    KilometresPerHour(f32),\n}"]),
    form(
        "FORM-9",
        SURVEY,
        "pub fn surveyed_speed(",
        &[
            "    }\n    match survey.speed {\n        SurveyedSpeed::MilesPerHour(x) =>",
            "\n        SurveyedSpeed::KilometresPerHour(x) =>",
            "\n    }\n}",
        ],
    ),
];

// FORM-10: where each answer that can be a refusal has its values.
const VALUES: [(&str, &str); 8] = [
    ("crates/answer/specs/Answers.antt", "grade_figures"),
    ("crates/answer/specs/Lanes.antt", "lanes_figures"),
    ("crates/survey/specs/Survey.antt", "survey_figures"),
    ("crates/lines/specs/Reading.antt", "case_values"),
    ("crates/method/specs/Assess.antt", "measure_figures"),
    ("crates/day/specs/Days.antt", "count_figures"),
    ("crates/daily/specs/Daily.antt", "daily_figures"),
    ("crates/forecast/specs/Forecasts.antt", "outcome_figures"),
];

// The lines of the item that begins so, if there is one.
fn item<'a>(text: &'a str, begins: &str) -> Option<Vec<&'a str>> {
    let lines: Vec<&str> = text.lines().collect();
    let first = lines.iter().position(|line| line.trim_start().starts_with(begins))?;
    let ends = |line: &&str| indent(line) == indent(lines[first]) && line.trim_start().starts_with(['}', ']']);
    let count = lines[first..].iter().position(|line| ends(line)).map_or(lines.len() - first, |n| n + 1);
    Some(lines[first..first + count].to_vec())
}

fn fault(form: &Form, text: &str) -> Option<String> {
    let Some(lines) = item(text, form.item) else {
        return Some(format!("{}: {} has no item that begins `{}`", form.rule, form.file, form.item));
    };
    let code: Vec<&str> = lines.into_iter().filter(|line| !line.trim_start().starts_with("//")).collect();
    let mut left = code.join("\n");
    for wanted in form.texts {
        match left.split_once(wanted) {
            Some((_, rest)) => left = rest.to_string(),
            None => return Some(format!("{}: `{}` in {} lacks `{wanted}`, or has it in another order", form.rule, form.item, form.file)),
        }
    }
    None
}

fn valued(text: &str, name: &str) -> bool {
    let of_a_result = format!("abbrev pub {name} : Result ");
    text.lines().any(|line| line.starts_with(&of_a_result)) && text.lines().any(|line| line.starts_with(&format!("{name} (Err ")))
}

const SAMPLE: &str =
    "pub fn first(x: u64) -> u64\n{\n    match x {\n        0..=1 => 2,\n        _ => 3,\n    }\n}\n\nfn second() {\n    // let z = 5;\n    let y = 4;\n}\n";

fn tries_itself() -> bool {
    let stands = |begins, texts| fault(&form("FORM-1", "sample", begins, texts), SAMPLE).is_none();
    let values = "abbrev pub n_figures : Result N Refusal → List N\nn_figures (Ok n) = n\nn_figures (Err r) = r\n";
    stands("pub fn first(", &["match x {", "0..=1", "_ =>"])
        && stands("fn second(", &["let y"])
        && !stands("fn third(", &[])
        && !stands("pub fn first(", &["let y"])
        && !stands("pub fn first(", &["_ =>", "0..=1"])
        && !stands("fn second(", &["let z"])
        && valued(values, "n_figures")
        && !valued(values, "m_figures")
        && !valued("abbrev pub n_figures : N → List N\n", "n_figures")
}

fn main() {
    if !tries_itself() {
        println!("forms: it does not see a fault that is planted");
        exit(1);
    }
    let tree = Tree::read();
    let mut wrong: Vec<String> = FORMS.iter().filter_map(|form| fault(form, tree.text(form.file))).collect();
    let lacking = VALUES.iter().filter(|(file, name)| !valued(tree.text(file), name));
    wrong.extend(lacking.map(|(file, name)| format!("FORM-10: {file} has no {name} of a Result, with its refusal apart")));
    for fault in &wrong {
        println!("forms: {fault}");
    }
    println!("forms: {} places, {} wrong", FORMS.len() + VALUES.len(), wrong.len());
    exit(i32::from(!wrong.is_empty()));
}
