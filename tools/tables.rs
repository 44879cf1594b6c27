// Makes the two constant tables of the engine from their rules by whole powers:
//   FORM-6, CURVE-5: T(i), i from 0 to 1,000: the least whole t with i^131 x 10^207 <= t^100
//   FORM-8, FFS-8: the ramp term, k from 0 to 48: the whole t with (2t - 1)^25 x 6^21 <= 6,440^25 x k^21 < (2t + 1)^25 x 6^21, and 0 for k = 0
//
//   tables write    writes the two files
//   tables check    says whether the two files are what it would write; status 1 if one is not
//
// Run at the project's root. The numbers are worked out here; that they obey the rules is proved in the crates.

use std::cmp::Ordering;
use std::fs;
use std::process::exit;

// A whole number of any size, in digits of 32 bits, the lowest first.
#[derive(Clone)]
struct Big(Vec<u32>);

impl Big {
    fn one() -> Big {
        Big(vec![1])
    }

    fn times(mut self, factor: u32) -> Big {
        let mut carry = 0u64;
        for digit in self.0.iter_mut() {
            let product = u64::from(*digit) * u64::from(factor) + carry;
            *digit = product as u32;
            carry = product >> 32;
        }
        if carry > 0 {
            self.0.push(carry as u32);
        }
        while self.0.last() == Some(&0) {
            self.0.pop();
        }
        self
    }

    fn times_power(self, base: u32, exponent: u32) -> Big {
        (0..exponent).fold(self, |product, _| product.times(base))
    }

    fn at_most(&self, other: &Big) -> bool {
        let order = self.0.len().cmp(&other.0.len());
        order.then_with(|| self.0.iter().rev().cmp(other.0.iter().rev())) != Ordering::Greater
    }
}

// UNIT-4: the least number below the end that passes a test that rises.
fn least(end: u32, passes: impl Fn(u32) -> bool) -> u32 {
    let (mut low, mut high) = (0, end);
    while low < high {
        let middle = low + (high - low) / 2;
        if passes(middle) {
            high = middle;
        } else {
            low = middle + 1;
        }
    }
    low
}

// CURVE-5.
fn power(i: u32) -> u32 {
    let reached = Big::one().times_power(i, 131).times_power(10, 207);
    least(1_000_001, |t| reached.at_most(&Big::one().times_power(t, 100)))
}

// FFS-8: the least t that fits the second half of the rule: the one before it, if there is one, does not, so that t fits the first half too.
fn ramp_term(k: u32) -> u32 {
    let middle = Big::one().times_power(6_440, 25).times_power(k, 21);
    least(20_001, |t| !Big::one().times_power(2 * t + 1, 25).times_power(6, 21).at_most(&middle))
}

struct Table {
    path: &'static str,
    name: &'static str,
    what: &'static str,
    entries: Vec<u32>,
}

// How wide `rt fmt` lets a line of a table be.
const WIDTH: usize = 99;

impl Table {
    // The entries as `rt fmt` lays them out: as many a line as fit.
    fn rows(&self) -> String {
        let mut rows = vec![String::from("   ")];
        for n in &self.entries {
            let entry = format!(" {n},");
            if rows[rows.len() - 1].len() + entry.len() > WIDTH {
                rows.push(String::from("   "));
            }
            let last = rows.len() - 1;
            rows[last].push_str(&entry);
        }
        rows.iter().map(|row| format!("{row}\n")).collect()
    }

    fn source(&self) -> String {
        format!(
            "/// {}. Made by tools/tables.rs: `make tables`.\npub(crate) static {}: [u32; {}] = [\n{}];\n",
            self.what,
            self.name,
            self.entries.len(),
            self.rows()
        )
    }
}

fn main() {
    let tables = [
        Table {
            path: "crates/curve/src/power_table.rt",
            name: "POWERS",
            what: "CURVE-5, FORM-6: T(i), i from 0 to 1,000",
            entries: (0..=1_000).map(power).collect(),
        },
        Table {
            path: "crates/road/src/ramp_table.rt",
            name: "RAMP_TERMS",
            what: "FFS-8, FORM-8: the ramp term of 0 to 48 ramps in six miles",
            entries: (0..=48).map(ramp_term).collect(),
        },
    ];
    match std::env::args().nth(1).as_deref() {
        Some("write") => {
            for table in &tables {
                let path = table.path;
                fs::write(path, table.source()).unwrap_or_else(|error| panic!("{path}: {error}"));
                println!("tables: wrote {path}");
            }
        }
        Some("check") => {
            let differs = |table: &&Table| fs::read_to_string(table.path).ok() != Some(table.source());
            let stale: Vec<&Table> = tables.iter().filter(differs).collect();
            for table in &stale {
                println!("tables: {} is not what tools/tables.rs makes: run `make tables`", table.path);
            }
            if !stale.is_empty() {
                exit(1);
            }
            println!("tables: {} files are what tools/tables.rs makes", tables.len());
        }
        _ => {
            eprintln!("usage: tables write | tables check");
            exit(2);
        }
    }
}
