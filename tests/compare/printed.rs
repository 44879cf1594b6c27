// DAILY-2, FIGURE-1: published daily service volumes of E beside the engine's: tests/published/daily_volumes.tsv, whose header says who printed
// them and how near ours must come. The order of the source's rows is checked by its own step.

use super::engine;
use super::tally::Tally;
use super::vectors::read;
use crate::second::daily::FIGURES;
use crate::second::lines;
use crate::second::method::{Case, Terrain};
use std::collections::BTreeMap;

const VOLUMES: &str = "tests/published/daily_volumes.tsv";
const SECTIONS: &str = "tests/published/sections.tsv";

// Of a section's row: where its heavy share stands, and how many fields its line has, at the end.
const HEAVY: usize = 3;
const LINE_FIELDS: usize = 13;

// Passenger cars at capacity, on each lane.
const CAPACITY: u64 = 2_400;

struct Section {
    line: Vec<u8>,
    case: Case,
    // Ten-thousandths, as the source has it.
    heavy_share: u64,
}

struct Printed {
    section: String,
    peak_share: u32,
    direction_share: u32,
    volume: u64,
    differs: bool,
}

// The fields of each row that is no comment.
fn rows(path: &str) -> Vec<Vec<String>> {
    let text = String::from_utf8_lossy(&read(path)).into_owned();
    let rows = text.lines().filter(|row| !row.starts_with('#'));
    rows.map(|row| row.split('\t').map(str::to_string).collect()).collect()
}

// Per cent with up to two decimals behind a comma, in ten-thousandths.
fn heavy_share(text: &str) -> Option<u64> {
    let (whole, decimals) = text.split_once(',').unwrap_or((text, ""));
    format!("{whole}{decimals:0<2}").parse().ok()
}

fn section(row: &[String]) -> Option<(String, Section)> {
    let line = row.get(row.len().checked_sub(LINE_FIELDS)?..)?.join("\t").into_bytes();
    let (case, heavy_share) = (lines::parse(&line)?, heavy_share(row.get(HEAVY)?)?);
    Some((row.first()?.clone(), Section { line, case, heavy_share }))
}

fn printed(row: &[String]) -> Option<Printed> {
    let [section, peak_share, direction_share, volume, differs] = row else { return None };
    Some(Printed {
        section: section.clone(),
        peak_share: peak_share.parse().ok()?,
        direction_share: direction_share.parse().ok()?,
        volume: volume.parse().ok()?,
        differs: differs == "share",
    })
}

impl Printed {
    fn share(&self) -> u64 {
        u64::from(self.peak_share) * u64::from(self.direction_share)
    }

    // The source's own step, to the nearest whole number.
    fn by_source(&self, section: &Section) -> u64 {
        let equivalent = if section.case.terrain == Terrain::Level { 2 } else { 3 };
        let cars = 10_000 + section.heavy_share * (equivalent - 1);
        let upper = CAPACITY * section.case.lanes * section.case.factor * 10_000 * 1_000;
        (2 * upper + cars * self.share()) / (2 * cars * self.share())
    }

    fn by_engine(&self, section: &Section) -> Option<u64> {
        let mut figures = [0; FIGURES];
        let result = engine::daily(&section.line, 0, self.peak_share, self.direction_share, &mut figures);
        (result == FIGURES as i32).then(|| figures[FIGURES - 1])
    }

    fn near(&self, volume: u64) -> bool {
        self.volume.checked_sub(volume).is_some_and(|below| below <= 1_000_000 / self.share() + 1)
    }
}

fn check(tally: &mut Tally, printed: &Printed, section: &Section) {
    let name = &printed.section;
    tally.equal(printed.by_source(section), printed.volume, || format!("{name}: the source's own step"));
    let ours = printed.by_engine(section);
    tally.check(ours.is_some_and(|volume| printed.near(volume) != printed.differs), || {
        format!("{name}: {} is printed, ours is {ours:?}, marked {}", printed.volume, printed.differs)
    });
    tally.check(!printed.differs || section.heavy_share % 10 != 0, || format!("{name}: marked share, and the share is in thousandths"));
}

pub fn daily_volumes(tally: &mut Tally) {
    let sections: BTreeMap<String, Section> = rows(SECTIONS).iter().filter_map(|row| section(row)).collect();
    let volumes: Vec<Option<Printed>> = rows(VOLUMES).iter().map(|row| printed(row)).collect();
    tally.check(!volumes.is_empty(), || format!("{VOLUMES} has no row"));
    for row in volumes {
        let found = row.as_ref().and_then(|row| Some((row, sections.get(&row.section)?)));
        match found {
            Some((row, section)) => check(tally, row, section),
            None => tally.check(false, || format!("{VOLUMES} has a row that is none")),
        }
    }
}
