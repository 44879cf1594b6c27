// SURVEY-1 to SURVEY-3, CALL-6: surveyed speeds, floats by their bits, in both units, and counts and flows around their limits.

use super::draw::Draw;
use super::engine;
use super::tally::Tally;
use crate::second::survey::{self, Unit};
use std::thread;

const UNITS: [Unit; 2] = [Unit::MilesPerHour, Unit::KilometresPerHour];
const STRIDE: usize = 5;

// FORM-2: each kind of float.
const SPECIAL: [u32; 20] = [
    0x0000_0000, // 0
    0x0000_0001, // least subnormal
    0x007f_ffff, // greatest subnormal
    0x0080_0000, // least normal
    0x3f80_0000, // 1
    0x4b00_0000, // 2^23
    0x4b7f_ffff, // greatest with a unit in the last place of 1
    0x4b80_0000, // 2^24
    0x5f80_0000, // 2^64
    0x7f7f_ffff, // greatest
    0x7f80_0000, // infinity
    0x7f80_0001, // signalling NaN
    0x7fa0_0000, // signalling NaN
    0x7fbf_ffff, // signalling NaN
    0x7fc0_0000, // quiet NaN
    0x7fff_ffff, // quiet NaN
    0x41f0_0000, // 30
    0x42b4_0000, // 90
    0x4270_0000, // 60
    0x42c8_0000, // 100
];
// REFUSAL-11, REFUSAL-12: at their limits, and where a narrower number would pass.
const CARS: [u32; 9] = [0, 1, 99, 100, 101, 255, 256 + 99, 65_536 + 99, u32::MAX];
const FLOWS: [u32; 10] = [0, 1, 499, 500, 999, 1_000, 1_001, 65_536, 0x8000_0000, u32::MAX];

fn check(tally: &mut Tally, bits: u32, unit: Unit, cars: u32, flow: u32) -> i32 {
    let (theirs, ours) = (engine::survey(bits, unit, cars, flow), survey::speed(bits, unit, cars, flow));
    tally.check(theirs == ours, || {
        format!("float {bits:08x} ({}) {unit:?}, {cars} cars, flow {flow}: engine {theirs}, second {ours}", f32::from_bits(bits))
    });
    ours
}

pub fn by_stride(tally: &mut Tally, draw: &mut Draw) {
    for (unit, low, high) in [(Unit::MilesPerHour, 29.99f32, 90.01f32), (Unit::KilometresPerHour, 48.26, 144.86)] {
        for bits in (low.to_bits()..=high.to_bits()).step_by(STRIDE) {
            check(tally, bits, unit, 100, 999);
        }
    }
    for unit in UNITS {
        // REFUSAL-13: every float around its limits.
        for limit in [30.0f32, 90.0, 90.001, 48.280_32, 144.840_96, 144.842_57] {
            for bits in limit.to_bits() - 2_000..=limit.to_bits() + 2_000 {
                check(tally, bits, unit, 100, 999);
            }
        }
        for bits in SPECIAL.into_iter().flat_map(|bits| [bits, bits | 0x8000_0000]) {
            for cars in CARS {
                for flow in FLOWS {
                    check(tally, bits, unit, cars, flow);
                }
            }
        }
        // Each exponent, of both signs.
        for exponent in 0..512u32 {
            for fraction in [0, 1, 0x40_0000, 0x7f_ffff] {
                check(tally, exponent << 23 | fraction, unit, 100, 999);
            }
        }
        for _ in 0..1_000_000 {
            let bits = draw.bits();
            check(tally, bits as u32, unit, 100 + (bits >> 40) as u32, (bits >> 32) as u32 % 1_000);
        }
    }
}

pub struct Counts {
    pub tally: Tally,
    pub accepted: u64,
    pub refused: u64,
}

fn half(unit: Unit, top_bit: u32) -> Counts {
    let mut counts = Counts { tally: Tally::default(), accepted: 0, refused: 0 };
    for bits in 0..=0x7fff_ffffu32 {
        if check(&mut counts.tally, top_bit | bits, unit, 100, 999) > 0 {
            counts.accepted += 1;
        } else {
            counts.refused += 1;
        }
    }
    counts
}

// SURVEY-2, FORM-2: all floats of a unit, those that are not negative, and the others, on two threads.
pub fn full(unit: Unit) -> Counts {
    thread::scope(|scope| {
        let negative = scope.spawn(move || half(unit, 0x8000_0000));
        let mut counts = half(unit, 0);
        let others = negative.join().expect("a half ends");
        counts.tally.add(others.tally);
        counts.accepted += others.accepted;
        counts.refused += others.refused;
        counts
    })
}
