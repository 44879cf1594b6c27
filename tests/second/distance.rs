// ACCURACY-1: the manual's speed curve of a multilane highway (kind M), with the exact exponent 1.31, stated by whole powers alone.
//
// Exports at_most_curve, whether a speed is at most the curve, and whole_thousandths_below, how far below the curve it lies.
//
// UNIT-1: speeds in thousandths of mi/h, capacity c and breakpoint b in hundredths of passenger cars per hour per lane, flow rates in whole
// passenger cars per hour per lane.

use super::big::Big;
use super::method::Kind;

// ACCURACY-1: whether a speed s is at most the curve's value at F and v, for 45,000 ≤ F ≤ 70,000 and 100v ≤ c.
//
// Up to 100v = b the curve is F. Beyond b the question is whether s ≤ F − (F − 10c/45) × ((100v − b) / (c − b))^1.31. Moving s and the
// product to the other sides, and multiplying by 45, this is (45F − 10c) × ((100v − b) / (c − b))^1.31 ≤ 45 × (F − s).
// The left side is not negative, since 10c ≤ 1,000,000 + 20F ≤ 45F. So a speed above F is not at most the curve. For any other speed
// neither side is negative, and raising both to the power 100 keeps their order; the exponent 1.31 becomes 131. Multiplied by
// (c − b)^131, this is (45F − 10c)^100 × (100v − b)^131 ≤ (45 × (F − s))^100 × (c − b)^131.
pub fn at_most_curve(free_flow_speed: u64, flow_rate: u64, speed: u64) -> bool {
    assert!(Kind::Multilane.free_flow_speeds().contains(&free_flow_speed), "F lies between the ends of its kind");
    let (c, b) = (Kind::Multilane.capacity(free_flow_speed), Kind::Multilane.breakpoint(free_flow_speed));
    assert!(100 * flow_rate <= c, "the curve ends at capacity");
    if speed > free_flow_speed {
        return false;
    }
    if 100 * flow_rate <= b {
        return true;
    }
    let drop_on_curve = powers(45 * free_flow_speed - 10 * c, 100 * flow_rate - b);
    let drop_of_speed = powers(45 * (free_flow_speed - speed), c - b);
    drop_on_curve <= drop_of_speed
}

// ACCURACY-2: how many whole thousandths a speed lies below the curve, the greatest k with speed + k at most the curve. None where the speed is above
// the curve. Each k is tried from 0 up, which is meant for speeds near the curve.
pub fn whole_thousandths_below(free_flow_speed: u64, flow_rate: u64, speed: u64) -> Option<u64> {
    (0..).take_while(|k| at_most_curve(free_flow_speed, flow_rate, speed + k)).last()
}

// drop^100 × flow^131.
fn powers(drop: u64, flow: u64) -> Big {
    let small = |number: u64| u32::try_from(number).expect("both are at most 45F, below 2^32");
    Big::one().times_power(small(drop), 100).times_power(small(flow), 131)
}
