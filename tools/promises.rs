// Checks, at the project's root, that every statement of the crates' specs/ stands on a public contract: the verdict of the prover speaks of
// functions alone, so that a statement which no function's `ensures` names could stay unproved and nobody would see it.
//
// A statement is a definition `pub NAME : Type 0` without parameters, or a list of facts `pub NAME : List Fact`. It stands on a contract
// where a clause of a `pub fn` of its own crate is that name, or Shown and that name, in a file that takes the name from the statement's
// file; or where a statement that does so is made of it: then its name is in that one's body, in the same file or in one that uses its file.
//
// It first tries itself on a small tree of its own.

mod tree;

use std::collections::BTreeMap;
use std::process::exit;
use tree::Tree;

// The files of crates/ by their path below it.
type Files = BTreeMap<String, String>;

#[derive(Debug)]
struct Statement {
    crate_name: String,
    file: String,
    name: String,
    body: String,
}

// Those of the project.
fn read() -> Files {
    let of_crates = |(path, text): (String, String)| Some((path.strip_prefix("crates/")?.to_string(), text));
    Tree::read().0.into_iter().filter_map(of_crates).filter(|(path, _)| path.ends_with(".rt") || path.ends_with(".antt")).collect()
}

fn is_word(text: &str, word: &str) -> bool {
    text.split(|c: char| !(c.is_alphanumeric() || c == '_' || c == '-' || c == '\'')).any(|part| part == word)
}

// CRATE/specs/FILE.antt as its crate and file.
fn spec_file(path: &str) -> Option<(&str, &str)> {
    let (crate_name, inside) = path.split_once('/')?;
    Some((crate_name, inside.strip_prefix("specs/")?.strip_suffix(".antt")?))
}

fn statement_name(line: &str) -> Option<&str> {
    let unmarked = line.strip_prefix("abbrev ").or_else(|| line.strip_prefix("unfoldable ")).unwrap_or(line);
    let (name, of_type) = unmarked.strip_prefix("pub ")?.split_once(" : ")?;
    (!name.contains(' ') && ["Type 0", "List Fact"].contains(&of_type.trim())).then_some(name)
}

// Each statement with the lines of its definition, up to an empty line.
fn statements(files: &Files) -> Vec<Statement> {
    let mut found = Vec::new();
    for (path, text) in files {
        let Some((crate_name, file)) = spec_file(path) else { continue };
        let lines: Vec<&str> = text.lines().collect();
        for (place, name) in lines.iter().enumerate().filter_map(|(place, line)| Some((place, statement_name(line)?))) {
            let body = lines[place + 1..].iter().take_while(|line| !line.is_empty()).copied().collect::<Vec<_>>().join("\n");
            found.push(Statement { crate_name: crate_name.to_string(), file: file.to_string(), name: name.to_string(), body });
        }
    }
    found
}

// The clauses `ensures .. { NAME }` and `ensures .. { Shown NAME }` of a source file's public functions, without comments: from a line with
// `pub` and `fn` on, up to the body's brace.
fn clauses(source: &str) -> Vec<String> {
    let (mut inside, mut text) = (false, String::new());
    for line in source.lines().map(str::trim).filter(|line| !line.starts_with("//")) {
        if line.contains("fn ") {
            inside = line.starts_with("pub ");
        }
        if line == "{" || line == "{}" {
            inside = false;
        }
        if inside {
            text.push_str(line);
            text.push(' ');
        }
    }
    let clauses = text.split("ensures ").skip(1).filter_map(|clause| Some(clause.split_once('{')?.1.split_once('}')?.0.trim().to_string()));
    clauses.map(|clause| clause.strip_prefix("Shown ").unwrap_or(&clause).trim().to_string()).collect()
}

// Whether a source file takes a name from a file of its own crate's specs/.
fn takes(source: &str, it: &Statement) -> bool {
    let from = format!("ghost use Rattle.{}.specs.{}.{{", it.crate_name, it.file);
    source.split(&from).skip(1).filter_map(|rest| rest.split_once('}')).any(|(names, _)| is_word(names, &it.name))
}

// Whether a public function of the statement's crate ensures it, and nothing else in that clause.
fn is_ensured(files: &Files, it: &Statement) -> bool {
    let mut sources = files.iter().filter(|(path, _)| path.starts_with(&format!("{}/src/", it.crate_name)));
    sources.any(|(_, source)| takes(source, it) && clauses(source).contains(&it.name))
}

// Whether a statement's body is in a file that sees another statement, and names it.
fn is_made_of(files: &Files, whole: &Statement, part: &Statement) -> bool {
    let same_file = whole.crate_name == part.crate_name && whole.file == part.file;
    let path = format!("{}/specs/{}.antt", whole.crate_name, whole.file);
    let uses = format!("Rattle.{}.specs.{}", part.crate_name, part.file);
    let sees = same_file || files.get(&path).is_some_and(|text| text.lines().any(|line| line.starts_with("use ") && line.contains(&uses)));
    sees && (whole.name != part.name || !same_file) && is_word(&whole.body, &part.name)
}

// The statements that stand on no public contract.
fn unnamed(files: &Files) -> (usize, Vec<String>) {
    let all = statements(files);
    let mut stands: Vec<bool> = all.iter().map(|it| is_ensured(files, it)).collect();
    loop {
        let more =
            |place: usize| !stands[place] && (0..all.len()).any(|whole| stands[whole] && is_made_of(files, &all[whole], &all[place]));
        let Some(place) = (0..all.len()).find(|&place| more(place)) else { break };
        stands[place] = true;
    }
    let missing = all.iter().zip(&stands).filter(|(_, stands)| !**stands);
    (all.len(), missing.map(|(it, _)| format!("{}/specs/{}.{}", it.crate_name, it.file, it.name)).collect())
}

const SAMPLE: [(&str, &str); 6] = [
    (
        "low/specs/Laws.antt",
        "abbrev pub Whole : Type 0\nWhole = PartOfIt × Other\n\nabbrev pub PartOfIt : Type 0\nPartOfIt = Unit\n\n\
         abbrev pub Lonely : Type 0\nLonely = Whole\n\nabbrev pub Privately : Type 0\nPrivately = Unit\n\n\
         abbrev pub Required : Type 0\nRequired = Unit\n\nabbrev pub Outside : Type 0\nOutside = Unit\n\n\
         abbrev pub Weakly : Type 0\nWeakly = Unit\n\nabbrev pub Twice : Type 0\nTwice = Unit\n\n\
         abbrev pub Of : ℕ → Type 0\nOf n = Unit\n\n\
         pub Opaque : Type 0\nOpaque = Unit\n\nunfoldable pub Unfolded : Type 0\nUnfolded = Unit\n",
    ),
    ("low/specs/Facts.antt", "unfoldable pub low_facts : List Fact\nlow_facts = []\n\nunfoldable pub Lost : List Fact\nLost = []\n"),
    (
        "low/src/promises.rt",
        "ghost use Rattle.low.specs.Laws.{Whole, Lonely, Privately, Required, Outside, Weakly, Unfolded};\nghost use Rattle.high.specs.Laws.{Twice};\n\n\
         pub fn whole()\n    ensures whole { Whole }\n    ensures { Unfolded }\n    // ensures outside { Outside }\n    ensures twice { Twice }\n{}\n\n\
         /// Beside Outside.\nfn privately()\n    ensures { Privately }\n{}\n\npub fn weakly()\n    ensures { Weakly → Weakly }\n{}\n\n\
         pub fn needs()\n    requires { Required }\n{\n    let x = Lonely;\n}\n",
    ),
    ("high/specs/Laws.antt", "abbrev pub Twice : Type 0\nTwice = Unit\n"),
    ("high/specs/Facts.antt", "use Rattle.low.specs.Facts as low\n\nunfoldable pub facts : List Fact\nfacts = low.low_facts\n"),
    (
        "high/src/lib.rt",
        "ghost use Rattle.high.specs.Facts.{facts};\nghost use Rattle.high.specs.Laws.{Twice};\n\npub fn shown()\n    ensures facts { Shown facts }\n\
             ensures twice {\n        Twice }\n{\n}\n",
    ),
];

const SAMPLE_UNNAMED: [&str; 8] = [
    "low/specs/Facts.Lost",
    "low/specs/Laws.Lonely",
    "low/specs/Laws.Privately",
    "low/specs/Laws.Required",
    "low/specs/Laws.Outside",
    "low/specs/Laws.Weakly",
    "low/specs/Laws.Twice",
    "low/specs/Laws.Opaque",
];

fn main() {
    let sample: Files = SAMPLE.iter().map(|(path, text)| (path.to_string(), text.to_string())).collect();
    let of_sample = unnamed(&sample);
    if of_sample.1 != SAMPLE_UNNAMED {
        println!("promises: of itself: the small tree gets {of_sample:?}");
        exit(1);
    }
    let (count, missing) = unnamed(&read());
    for name in &missing {
        println!("promises: {name} stands on no public contract");
    }
    println!("promises: {count} statements, {} on no public contract", missing.len());
    exit(i32::from(!missing.is_empty() || count == 0));
}
