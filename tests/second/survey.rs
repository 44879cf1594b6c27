// Surveyed speeds, by whole numbers made from the float's bits.

// SURVEY-1: the two units of the speed.
#[derive(Clone, Copy, PartialEq, Eq, Debug)]
pub enum Unit {
    MilesPerHour,
    KilometresPerHour,
}

// A finite float that is not negative: m × 2^power.
struct Parts {
    m: u128,
    power: i32,
}

fn parts(bits: u32) -> Option<Parts> {
    let (negative, exponent, fraction) = (bits >> 31 == 1, bits >> 23 & 0xff, bits & 0x7f_ffff);
    match exponent {
        _ if negative => None,
        0xff => None,
        0 => Some(Parts { m: u128::from(fraction), power: -149 }),
        _ => Some(Parts { m: u128::from(fraction + 0x80_0000), power: exponent as i32 - 150 }),
    }
}

// SURVEY-2: the exact value in thousandths of mi/h, rounded down; None for a value of 2^24 miles or kilometres per hour or more, which no road sees,
// for one below 0 and for no number.
fn thousandths(bits: u32, unit: Unit) -> Option<u128> {
    let Parts { m, power } = parts(bits)?;
    if power > 0 {
        return None;
    }
    // 1 km/h is 1,000,000 / 1,609,344 mi/h.
    let (over, under) = match unit {
        Unit::MilesPerHour => (m * 1_000, 1),
        Unit::KilometresPerHour => (m * 1_000 * 1_000_000, 1_609_344),
    };
    // over is below 2^54.
    if power < -54 {
        return Some(0);
    }
    Some(over / (under << -power))
}

// SURVEY-3, CALL-6, REFUSAL-11 to REFUSAL-13: the speed, or minus the first refusal.
pub fn speed(bits: u32, unit: Unit, cars: u32, flow: u32) -> i32 {
    if cars < 100 {
        return -11;
    }
    if flow >= 1_000 {
        return -12;
    }
    match thousandths(bits, unit) {
        Some(speed @ 30_000..=90_000) => speed as i32,
        _ => -13,
    }
}
