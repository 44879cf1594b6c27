// CURVE-3, WEATHER-3: where the freeway speed falls as free-flow speed rises by a thousandth, under one capacity factor, at one flow rate: in clear
// weather nowhere, by a law of the engine; in snow or rain at a few points, by the rounding of the breakpoint. Every capacity factor, every
// free-flow speed after its factor and every flow rate up to both capacities is tried, in whole numbers, on the second implementation's
// curves.

use super::tally::Tally;
use crate::second::method::{Curve, Kind};
use std::collections::BTreeSet;
use std::thread;

// What is said of it: the capacity factors at which the speed falls somewhere, how many points there are, the farthest fall in billionths
// of a thousandth of mi/h (it is 0.000155 thousandths), and one of the points with its factor, F and v.
const FACTORS: std::ops::RangeInclusive<u64> = 501..=506;
const POINTS: usize = 409;
const FARTHEST: u128 = 155_000;
const ONE_OF_THEM: [u64; 3] = [503, 74_991, 1_207];

const BILLION: u128 = 1_000_000_000;
const THREADS: u64 = 4;

// Free-flow speeds after their factor.
const LOWEST: u64 = 50_000;
const HIGHEST: u64 = 75_000;

// A capacity factor, F and v at which the speed at F + 1 is lower, and by how many billionths, rounded up.
type Fall = ([u64; 3], u128);

// S past the breakpoint as a fraction: 9F(c − b)² − (9F − 2c)(100v − b)² over 9(c − b)². Both fit 64 bits.
fn speed(curve: &Curve, flow_rate: u64) -> (u128, u128) {
    let (span, beyond) = (curve.capacity - curve.breakpoint, 100 * flow_rate - curve.breakpoint);
    let fall = 9 * curve.free_flow_speed - 2 * curve.capacity;
    let over = 9 * curve.free_flow_speed * span * span - fall * beyond * beyond;
    (u128::from(over), u128::from(9 * span * span))
}

// The falls from one free-flow speed to the next. Up to a breakpoint the speed is F, which is the highest there is on that curve; the
// breakpoint never rises with F, so that only flow rates past the greater one are looked at, and those between the two.
fn falls_at(capacity_factor: u64, free_flow_speed: u64, falls: &mut Vec<Fall>) {
    let [less, more] = [free_flow_speed, free_flow_speed + 1].map(|speed| Curve::new(Kind::Freeway, speed, capacity_factor));
    assert!(more.breakpoint <= less.breakpoint, "the breakpoint rises with F");
    let most = less.capacity.min(more.capacity) / 100;
    for flow_rate in more.breakpoint / 100 + 1..=most {
        let (over, under) = if 100 * flow_rate <= less.breakpoint { (u128::from(free_flow_speed), 1) } else { speed(&less, flow_rate) };
        let (next_over, next_under) = speed(&more, flow_rate);
        if next_over * under < over * next_under {
            let lost = ((over * next_under - next_over * under) * BILLION).div_ceil(under * next_under);
            falls.push(([capacity_factor, free_flow_speed, flow_rate], lost));
        }
    }
}

fn falls() -> Vec<Fall> {
    let part = |number: u64| {
        let mut falls = Vec::new();
        for capacity_factor in Kind::Freeway.weather_factors() {
            for free_flow_speed in (LOWEST + number..HIGHEST).step_by(THREADS as usize) {
                falls_at(capacity_factor, free_flow_speed, &mut falls);
            }
        }
        falls
    };
    thread::scope(|scope| {
        let threads: Vec<_> = (0..THREADS).map(|number| scope.spawn(move || part(number))).collect();
        threads.into_iter().flat_map(|thread| thread.join().expect("a part ends")).collect()
    })
}

pub fn full() -> Tally {
    let mut tally = Tally::default();
    let falls = falls();
    let factors: BTreeSet<u64> = falls.iter().map(|([factor, _, _], _)| *factor).collect();
    let farthest = falls.iter().map(|(_, lost)| *lost).max().unwrap_or(0);
    println!("speed falls at {} points, factors {factors:?}, by {farthest} billionths of a thousandth of mi/h at most", falls.len());
    tally.equal(factors, FACTORS.collect(), || "capacity factors at which the speed falls".to_string());
    tally.equal(falls.len(), POINTS, || "points at which it falls".to_string());
    tally.check(farthest.div_ceil(1_000) * 1_000 == FARTHEST, || format!("the farthest fall is {farthest} billionths"));
    tally.check(falls.iter().any(|(point, _)| *point == ONE_OF_THEM), || format!("no fall at {ONE_OF_THEM:?}"));
    tally
}
