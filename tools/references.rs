// Checks the pages against the tree, at the project's root: what README.md, include/marehour.h and the files docs/*.md name stands in
// the tree, and what CONTRIBUTING.md and CHANGELOG.md do if there are such. docs/landings tells what was, and is not read.
//
// A name is written between backticks on one line, outside fenced blocks, without a blank, in one of these forms:
//   CRATE::ITEM                   a function, type, constant or static of crates/CRATE/src/lib.rt or main.rt, outside of any block
//   CRATE::MODULE::ITEM           the same of crates/CRATE/src/MODULE.rt
//   CRATE::TYPE::MEMBER           a function or constant in an impl of TYPE in crates/CRATE/src/lib.rt or main.rt, or in the trait TYPE,
//                                 or a variant of the enum TYPE there; TYPE begins with a capital
//   CRATE::MODULE::TYPE::MEMBER   the same of crates/CRATE/src/MODULE.rt, where the impl stands
//   CRATE/specs/FILE.NAME         a definition of crates/CRATE/specs/FILE.antt, public or not, or a public field of a record there; the
//                                 same with proofs/ for a law
//   CRATE/must-fail/NAME          an edit
//   a path with a slash           from the root; before a * only the folder is looked for
//   a file's name                 with one of ENDINGS, in any folder
// What has such a form and is not in the tree is wrong, also where its crate is unknown. Passed over are: paths under target/ and build/,
// which a build makes, and under /dev/; paths with one of PLACEHOLDERS; A::B where A is one of OUTSIDE, a crate that crates.txt names only
// after a colon (the toolchain's), or begins with no small letter; what begins with a hyphen; any other text.
//
// Wrong, too, is a decision that a file cites, D-n, and that docs/DECISIONS.md does not have.
//
// It first tries itself on a small tree of its own.

mod tree;

use std::collections::BTreeSet;
use std::process::exit;
use tree::{declaration, first_identifier, implemented, indent, Tree, BUILT, MEMBER_INDENT};

const DECISIONS: &str = "docs/DECISIONS.md";
const DOCUMENTS: [&str; 2] = ["README.md", "include/marehour.h"];
// Documents too, where they are.
const FURTHER: [&str; 2] = ["CONTRIBUTING.md", "CHANGELOG.md"];
const ENDINGS: [&str; 11] = ["antt", "c", "edit", "h", "md", "out", "rs", "rt", "sh", "tsv", "txt"];
const PLACEHOLDERS: [char; 4] = ['<', '{', '$', '('];
const OUTSIDE: [&str; 18] =
    ["std", "bool", "char", "str", "f32", "f64", "u8", "u16", "u32", "u64", "u128", "usize", "i8", "i16", "i32", "i64", "i128", "isize"];

#[derive(Clone, Copy, Debug, PartialEq)]
enum Verdict {
    Stands,
    Missing,
    PassedOver,
}

struct Report {
    wrong: Vec<String>,
    checked: usize,
}

impl Tree {
    fn has(&self, path: &str) -> bool {
        let folder = format!("{}/", path.trim_end_matches('/'));
        self.0.contains_key(path) || self.0.range(folder.clone()..).next().is_some_and(|(file, _)| file.starts_with(&folder))
    }

    fn has_crate(&self, name: &str) -> bool {
        self.crates().iter().any(|(own, _)| *own == name)
    }

    fn is_toolchain_crate(&self, name: &str) -> bool {
        !self.has_crate(name) && self.crates().iter().any(|(_, needed)| needed.split_whitespace().any(|other| other == name))
    }
}

fn begins_with_capital(name: &str) -> bool {
    name.starts_with(|c: char| c.is_ascii_uppercase())
}

// Whether a source file declares the item outside of any block.
fn declares(source: &str, item: &str) -> bool {
    source.lines().any(|line| indent(line) == 0 && declaration(line).is_some_and(|(_, name)| name == item))
}

// Whether a source file has the member in an impl of the type, in the trait, or among the enum's variants. A line that is not indented
// begins or ends a block.
fn has_member(source: &str, owner: &str, member: &str) -> bool {
    let (mut in_impl, mut in_enum) = (false, false);
    source.lines().filter(|line| !line.trim().is_empty()).any(|line| {
        if indent(line) == 0 {
            in_impl = implemented(line) == Some(owner) || declaration(line) == Some(("trait", owner));
            in_enum = declaration(line) == Some(("enum", owner));
        }
        let is_variant = in_enum && begins_with_capital(member) && first_identifier(line.trim_start()) == member;
        let is_item = in_impl && declaration(line).is_some_and(|(_, name)| name == member);
        indent(line) == MEMBER_INDENT && (is_variant || is_item)
    })
}

// A name that an antt file declares on this line, if any; within a definition with `pub` alone, as a record its fields.
fn declared(line: &str) -> Option<&str> {
    let inner = line.starts_with(' ');
    let line = line.trim_start();
    let line = line.strip_prefix("unfoldable ").or_else(|| line.strip_prefix("abbrev ")).unwrap_or(line);
    let rest = line.strip_prefix("pub ").or((!inner).then_some(line))?;
    let record = rest.strip_prefix("record ").or_else(|| rest.strip_prefix("data "));
    let name = record.unwrap_or(rest).split_whitespace().next()?;
    (record.is_some() || rest[name.len()..].trim_start().starts_with(':')).then_some(name)
}

fn judge_item(tree: &Tree, name: &str) -> Verdict {
    let parts: Vec<&str> = name.split("::").collect();
    let first = parts[0];
    let small = first.starts_with(|c: char| c.is_ascii_lowercase());
    if !small || OUTSIDE.contains(&first) || tree.is_toolchain_crate(first) {
        return Verdict::PassedOver;
    }
    let root = vec!["lib", "main"];
    let (modules, owner, item) = match parts[1..] {
        [item] => (root, None, item),
        [owner, member] if begins_with_capital(owner) => (root, Some(owner), member),
        [module, item] => (vec![module], None, item),
        [module, owner, member] if begins_with_capital(owner) => (vec![module], Some(owner), member),
        _ => return Verdict::Missing,
    };
    let in_module = |module: &&str| {
        let source = tree.text(&format!("crates/{first}/src/{module}.rt"));
        owner.map_or(declares(source, item), |owner| has_member(source, owner, item))
    };
    if tree.has_crate(first) && modules.iter().any(in_module) {
        Verdict::Stands
    } else {
        Verdict::Missing
    }
}

// Whether a name is CRATE/specs/FILE.NAME, CRATE/proofs/FILE.NAME or CRATE/must-fail/NAME and in the tree.
fn stands_in_crate(tree: &Tree, name: &str) -> bool {
    let Some((crate_name, inside)) = name.split_once('/') else { return false };
    let defines = |(file, item): (&str, &str)| {
        let text = tree.text(&format!("crates/{crate_name}/{file}.antt"));
        text.lines().filter_map(declared).any(|name| name == item)
    };
    tree.has_crate(crate_name)
        && match inside.split_once('/') {
            Some(("specs" | "proofs", _)) => inside.split_once('.').is_some_and(defines),
            Some(("must-fail", _)) => tree.has(&format!("crates/{name}.edit")),
            _ => false,
        }
}

fn judge_path(tree: &Tree, name: &str) -> Verdict {
    let top = name.split('/').next().unwrap_or("");
    if BUILT.contains(&top) || name.starts_with("/dev/") || name.contains(PLACEHOLDERS) {
        return Verdict::PassedOver;
    }
    let folder = name.split_once('*').map(|(before, _)| before.rsplit_once('/').map_or("", |(folder, _)| folder));
    if tree.has(folder.unwrap_or(name)) || stands_in_crate(tree, name) {
        Verdict::Stands
    } else {
        Verdict::Missing
    }
}

fn judge_file_name(tree: &Tree, name: &str) -> Verdict {
    let known = name.rsplit_once('.').is_some_and(|(stem, ending)| !stem.is_empty() && ENDINGS.contains(&ending));
    if !known || name.contains('*') {
        Verdict::PassedOver
    } else if tree.0.keys().any(|path| path.rsplit('/').next() == Some(name)) {
        Verdict::Stands
    } else {
        Verdict::Missing
    }
}

fn judge(tree: &Tree, name: &str) -> Verdict {
    if name.contains(char::is_whitespace) || name.starts_with('-') {
        Verdict::PassedOver
    } else if name.contains("::") {
        judge_item(tree, name)
    } else if name.contains('/') {
        judge_path(tree, name)
    } else {
        judge_file_name(tree, name)
    }
}

fn quoted(line: &str) -> impl Iterator<Item = &str> {
    line.split('`').skip(1).step_by(2)
}

// The lines outside fenced blocks, with their numbers, and whether the last block ends.
fn unfenced(text: &str) -> (Vec<(usize, &str)>, bool) {
    let (mut lines, mut fenced) = (Vec::new(), false);
    for (number, line) in (1..).zip(text.lines()) {
        if line.trim_start().starts_with("```") {
            fenced = !fenced;
        } else if !fenced {
            lines.push((number, line));
        }
    }
    (lines, !fenced)
}

fn check_document(tree: &Tree, document: &str, report: &mut Report) {
    let (lines, ended) = unfenced(tree.text(document));
    if !ended {
        report.wrong.push(format!("{document} has a fenced block without end"));
    }
    for (number, line) in lines {
        if line.matches('`').count() % 2 > 0 {
            report.wrong.push(format!("{document}:{number} has a backtick without its pair"));
        }
        for name in quoted(line) {
            let verdict = judge(tree, name);
            if verdict == Verdict::Missing {
                report.wrong.push(format!("{document}:{number} names `{name}`, which is not in the tree"));
            }
            report.checked += usize::from(verdict != Verdict::PassedOver);
        }
    }
}

// The numbers of decisions, D-n, on a line.
fn decisions(line: &str) -> impl Iterator<Item = &str> {
    let words = line.split(|c: char| !(c.is_alphanumeric() || c == '-' || c == '_'));
    words.filter(|word| word.strip_prefix("D-").is_some_and(|n| !n.is_empty() && n.chars().all(|c| c.is_ascii_digit())))
}

// Every decision that is cited stands in DECISIONS: it has a heading, or the list of those that are gone tells of it.
fn check_decisions(tree: &Tree, report: &mut Report) {
    let (mut stand, mut gone) = (BTreeSet::new(), false);
    for line in tree.text(DECISIONS).lines() {
        gone |= line == "## Numbers that are gone";
        let told = decisions(line).take(if gone { usize::MAX } else { usize::from(line.starts_with("### D-")) });
        stand.extend(told);
    }
    for (path, text) in tree.0.iter().filter(|(path, _)| !path.starts_with("docs/landings/")) {
        for (number, line) in (1..).zip(text.lines()) {
            let missing = decisions(line).filter(|cited| !stand.contains(cited));
            report.wrong.extend(missing.map(|cited| format!("{path}:{number} cites {cited}, which {DECISIONS} does not have")));
        }
    }
}

fn check(tree: &Tree) -> Report {
    let mut report = Report { wrong: Vec::new(), checked: 0 };
    let in_docs = |path: &&str| path.strip_prefix("docs/").is_some_and(|name| !name.contains('/') && name.ends_with(".md"));
    let further = FURTHER.into_iter().filter(|path| tree.has(path));
    let documents: BTreeSet<&str> = tree.0.keys().map(String::as_str).filter(in_docs).chain(DOCUMENTS).chain(further).collect();
    for document in documents {
        if tree.text(document).is_empty() {
            report.wrong.push(format!("{document} is missing"));
        }
        check_document(tree, document, &mut report);
    }
    check_decisions(tree, &mut report);
    report
}

// The small tree that the check tries itself on. Its documents have the faults of SAMPLE_FAULTS and no others.
const SAMPLE: [(&str, &str); 16] = [
    ("crates.txt", "# low: halves\nlow:\n# high: the program\nhigh: low io\n"),
    (
        "crates/low/src/lib.rt",
        "pub mod kind;\npub fn halved(n: u64) -> u64\n// the fn spoken of\npub enum Refusal {\n    TooLow = 1,\n}\n\
         impl Refusal {\n    pub fn number(self) -> u64\n}\n",
    ),
    (
        "crates/low/src/kind.rt",
        "struct Step {\n    pub most: u64,\n}\nimpl Step {\n    pub const MOST: u64 = 8;\n    // the fn spoken of\n    \
         fn taken(&self) -> u64\n    {\n        const INNER: u64 = 1;\n    }\n}\npub extern \"C\" fn called(n: u64)\n\
         pub(crate) static TABLE: [u64; 2] = [\n    1, 2,\n];\npub type Pair = [u64; 2];\n\
         pub enum Way<T> {\n    // Down of two\n    Up(T),\n\n    Around { steps: u64 },\n}\n\
         impl<T> Way<T> {\n    pub fn turned(self) -> Way<T>\n}\nimpl Iterator for Step {\n    fn next(&mut self) -> u64\n}\n\
         pub(crate) trait Walks: Sized {\n    fn of_steps(n: u64) -> Self;\n}\n",
    ),
    (
        "crates/low/specs/Half.antt",
        "abbrev pub half : N\nunfoldable pub twice : N\npub data Side where\npub record Parts where\n  pub left : N\nhidden : N\n\
         hidden = inner\n  where\n    inner : N\n",
    ),
    ("crates/low/specs/Lib.antt", "pub mod Half\n"),
    ("crates/low/proofs/HalfLaws.antt", "pub half-mono : Mono half\n"),
    ("crates/low/must-fail/half_of_1_is_1.edit", "x"),
    ("crates/high/src/main.rt", "fn main() {\n"),
    ("crates/unlisted/src/lib.rt", "pub fn stale() {\n"),
    ("crates/unlisted/specs/Stale.antt", "pub stale : N\n"),
    ("README.md", "`low::halved` and `lw::halved`\n```\n`low::gone`\n```\n"),
    ("docs/MAP.md", "`low/specs/Half.half` `low/specs/Half.twice` `low/specs/Half.Side`\nan `odd one\n`low/specs/Half.Part`\n"),
    ("CHANGELOG.md", "`low::kind::Gone`\n"),
    (DECISIONS, concat!("### D", "-1 of D", "-3\n`tests/gone.rs`\n## Numbers that are gone\nD", "-1 of D", "-2\n```\n")),
    ("docs/FURTHER.md", concat!("`gone.rs`\nas D", "-1 and D", "-2, not D", "-3 or D", "-01 (AD", "-3, D", "-x)\n")),
    ("docs/landings/00-first.md", "`low::gone`\n"),
];

const SAMPLE_FAULTS: [&str; 11] = [
    "CHANGELOG.md:1 names `low::kind::Gone`, which is not in the tree",
    "README.md:1 names `lw::halved`, which is not in the tree",
    "docs/DECISIONS.md has a fenced block without end",
    "docs/DECISIONS.md:2 names `tests/gone.rs`, which is not in the tree",
    "docs/FURTHER.md:1 names `gone.rs`, which is not in the tree",
    "docs/MAP.md:2 has a backtick without its pair",
    "docs/MAP.md:3 names `low/specs/Half.Part`, which is not in the tree",
    "include/marehour.h is missing",
    concat!("docs/DECISIONS.md:1 cites D", "-3, which docs/DECISIONS.md does not have"),
    concat!("docs/FURTHER.md:2 cites D", "-3, which docs/DECISIONS.md does not have"),
    concat!("docs/FURTHER.md:2 cites D", "-01, which docs/DECISIONS.md does not have"),
];

const SAMPLE_STANDS: [&str; 32] = [
    "low::halved",
    "low::Refusal",
    "low::Refusal::TooLow",
    "low::Refusal::number",
    "low::kind::Step",
    "low::kind::Step::MOST",
    "low::kind::Step::taken",
    "low::kind::Step::next",
    "low::kind::called",
    "low::kind::TABLE",
    "low::kind::Pair",
    "low::kind::Way::Up",
    "low::kind::Way::Around",
    "low::kind::Way::turned",
    "low::kind::Walks::of_steps",
    "high::main",
    "low/specs/Half.half",
    "low/specs/Half.twice",
    "low/specs/Half.Side",
    "low/specs/Half.Parts",
    "low/specs/Half.left",
    "low/specs/Half.hidden",
    "low/proofs/HalfLaws.half-mono",
    "low/must-fail/half_of_1_is_1",
    "crates/low",
    "crates/low/specs/Half.antt",
    "docs/MAP.md",
    "docs/",
    "docs/*.md",
    "crates.txt",
    "MAP.md",
    "Half.antt",
];

const SAMPLE_MISSING: [&str; 48] = [
    "lw::halved",
    "lw::kind::Step",
    "lw::Refusal::number",
    "unlisted::stale",
    "low::halve",
    "low::halved()",
    "low::spoken",
    "low::MOST",
    "low::number",
    "low::TooLow",
    "low::Refusal::TooHigh",
    "low::Refusal::halved",
    "low::kind::halved",
    "low::kind::MOST",
    "low::kind::taken",
    "low::kind::Up",
    "low::kind::Refusal::number",
    "low::kind::Step::most",
    "low::kind::Step::spoken",
    "low::kind::Step::INNER",
    "low::kind::Step::called",
    "low::kind::Step::turned",
    "low::kind::Step::of_steps",
    "low::kind::Way::MOST",
    "low::kind::Way::Down",
    "low::kind::Way::steps",
    "low::kind::Way::Up::turned",
    "low::kind::Way::",
    "low::kinds::Step",
    "low::",
    "lw/specs/Half.half",
    "unlisted/specs/Stale.stale",
    "low/specs/Half",
    "low/specs/Half.hal",
    "low/specs/Half.inner",
    "low/specs/Halves.half",
    "low/proofs/HalfLaws.half",
    "lw/must-fail/half_of_1_is_1",
    "low/must-fail/half_of_1",
    "crates/lo",
    "tests/gone.rs",
    "test/*.rs",
    "../docs/MAP.md",
    "/docs/MAP.md",
    "docs/MAP.md:3",
    "gone.rs",
    "AP.md",
    "1/2",
];

const SAMPLE_PASSED_OVER: [&str; 23] = [
    "",
    "make test",
    "rt ci",
    "low < file | head -1",
    "low::halved of one",
    "now (x .exit)",
    "requires",
    "low",
    "called_from_c",
    "&[u8]",
    "pub(crate)",
    "-O3",
    "-I../include",
    ".rt",
    "*.rt",
    "target/bin/low",
    "build/calls",
    "/dev/full",
    "$(BUILD)/calls",
    "docs/<name>.md",
    "io::write_all",
    "f32::to_bits",
    "CRATE::ITEM",
];

// What the check finds wrong of itself: verdicts on names in the small tree, and the faults of its documents.
fn self_test() -> Vec<String> {
    let tree = Tree::of(&SAMPLE);
    let expected =
        [(Verdict::Stands, &SAMPLE_STANDS[..]), (Verdict::Missing, &SAMPLE_MISSING[..]), (Verdict::PassedOver, &SAMPLE_PASSED_OVER[..])];
    let mut wrong = Vec::new();
    for (verdict, names) in expected {
        for name in names {
            let got = judge(&tree, name);
            if got != verdict {
                wrong.push(format!("of itself: `{name}` gets {got:?}, not {verdict:?}"));
            }
        }
    }
    let report = check(&tree);
    if report.wrong != SAMPLE_FAULTS {
        wrong.push(format!("of itself: the small tree gets {:#?}", report.wrong));
    }
    wrong
}

fn main() {
    let mut wrong = self_test();
    let report = check(&Tree::read());
    wrong.extend(report.wrong);
    for line in &wrong {
        println!("references: {line}");
    }
    if !wrong.is_empty() || report.checked == 0 {
        println!("references: {} wrong, {} checked", wrong.len(), report.checked);
        exit(1);
    }
    println!("references: {} checked, all stand", report.checked);
}
