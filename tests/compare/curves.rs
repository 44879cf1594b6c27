// CURVE-1 to CURVE-7, LETTER-1, LETTER-2: whole curves, a given free-flow speed with each flow rate, in clear weather and under snow or rain. On
// two lanes with H = 1,000 and P = 0 the demand 2v has the flow rate v.

use super::draw::append_line;
use super::engine;
use super::tally::{in_parts, Tally, PARTS};
use crate::second::lines;
use crate::second::method::{density, millionths, speed_at_weight, Case, Curve, Kind, Median, Method, Service, Terrain, Way, Weather};
use std::fmt::Write;

// Strides that share no factor with 10, 45 or the steps of the tables.
const SPEED_STRIDE: usize = 97;
const FLOW_STRIDE: usize = 7;

fn road(kind: Kind, free_flow_speed: u64, weather: Weather) -> Case {
    Case {
        kind,
        way: Way::Given,
        speed: free_flow_speed,
        width: 120,
        right: 60,
        left: 60,
        median: Median::Divided,
        access: 0,
        lanes: 2,
        demand: 0,
        factor: 1_000,
        share: 0,
        terrain: Terrain::Level,
        weather,
    }
}

pub fn clear_road(kind: Kind, free_flow_speed: u64) -> Case {
    road(kind, free_flow_speed, Weather::CLEAR)
}

// One curve. The service volumes do not change with the demand and are searched for once.
fn curve(method: &Method, tally: &mut Tally, road: &Case, flow_rates: impl Iterator<Item = u64>) {
    let curve = method.curve(road).expect("the road is accepted");
    let Curve { free_flow_speed, capacity, .. } = curve;
    let volumes = method.service_volumes(road, &curve).map(|volume| volume.to_string()).join("\t");
    let (mut line, mut expected, mut buffer) = (String::new(), String::new(), [0u8; 64]);
    for flow_rate in flow_rates {
        line.clear();
        append_line(&mut line, &Case { demand: 2 * flow_rate, ..*road });
        let Service { letter, speed, density } = method.service(&curve, flow_rate);
        let letter = lines::letter_name(letter);
        expected.clear();
        let written = writeln!(expected, "{letter}\t{free_flow_speed}\t{capacity}\t{flow_rate}\t{speed}\t{density}\t{volumes}");
        written.expect("a string can be written to");
        let result = engine::answer(line.as_bytes(), &mut buffer);
        let same = result == expected.len() as i32 && buffer[..expected.len()] == *expected.as_bytes();
        tally.check(same, || format!("{line:?}: engine {:?}, second {expected:?}", engine::text(result, &buffer)));
    }
}

// The flow rates around the breakpoint, each change of letter and capacity.
fn telling_flow_rates(method: &Method, road: &Case) -> Vec<u64> {
    let curve = method.curve(road).expect("the road is accepted");
    let mut centres = method.service_volumes(road, &curve).map(|volume| volume / 2).to_vec();
    centres.extend([curve.breakpoint / 100, curve.capacity / 100]);
    centres.iter().flat_map(|&centre| centre - 1..=centre + 2).collect()
}

// Some flow rates of a road, of each residue in turn, and the telling ones.
fn some_flow_rates(method: &Method, tally: &mut Tally, place: usize, road: &Case) {
    let most = method.curve(road).expect("the road is accepted").capacity / 100 + 1;
    curve(method, tally, road, (place as u64 % FLOW_STRIDE as u64..=most).step_by(FLOW_STRIDE));
    curve(method, tally, road, telling_flow_rates(method, road).into_iter());
}

// Some speeds of each kind, the ends and what is beside them included, with some flow rates of each.
pub fn by_stride(method: &Method, tally: &mut Tally) {
    for kind in [Kind::Freeway, Kind::Multilane] {
        let (low, high) = (*kind.free_flow_speeds().start(), *kind.free_flow_speeds().end());
        for (place, speed) in (low..=high).step_by(SPEED_STRIDE).chain([low + 1, high - 1, high, 60_000, 65_000]).enumerate() {
            some_flow_rates(method, tally, place, &clear_road(kind, speed));
        }
    }
}

// WEATHER-1 to WEATHER-3: every capacity factor, each with one of seven speeds in turn and three speed factors: the least that 10 lets pass, one
// between, and 1,000.
pub fn under_weather(method: &Method, tally: &mut Tally) {
    let speeds = [55_000, 59_999, 60_000, 67_855, 70_000, 75_000, 90_000];
    for capacity_factor in Kind::Freeway.weather_factors() {
        let place = capacity_factor as usize;
        let speed = speeds[place % speeds.len()];
        let least = 50_000_000_u64.div_ceil(speed.min(75_000));
        for speed_factor in [least, least + 1 + (37 * capacity_factor) % (1_000 - least), 1_000] {
            some_flow_rates(method, tally, place, &road(Kind::Freeway, speed, Weather { speed_factor, capacity_factor }));
        }
    }
}

// What is shown of a flow rate on kind M with a table entry t.
fn shown(free_flow_speed: u64, flow_rate: u64, t: u64) -> (u64, u64) {
    let speed = speed_at_weight(&Curve::clear(Kind::Multilane, free_flow_speed), millionths(t));
    (speed.rounded_down(), density(speed, flow_rate).rounded_up())
}

// CURVE-5, FORM-6: flow rates on kind M that show the entries of the table, two for each, at one of which a greater entry, at the other a smaller
// one, would be seen. Two entries lack one: T(1), which no whole flow rate looks up, and T(1,000), where one millionth less cannot be seen.
pub fn table_entries(method: &Method, tally: &mut Tally) {
    let mut seen = [[false; 2]; 1_001];
    for speed in Kind::Multilane.free_flow_speeds().rev() {
        let (b, c) = (Kind::Multilane.breakpoint(speed), Kind::Multilane.capacity(speed));
        for flow_rate in b / 100 + 1..=c / 100 {
            let i = (1_000 * (100 * flow_rate - b)).div_ceil(c - b);
            let t = method.power(i);
            for (seen, other) in seen[i as usize].iter_mut().zip([t + 1, t - 1]) {
                if !*seen && shown(speed, flow_rate, other) != shown(speed, flow_rate, t) {
                    *seen = true;
                    curve(method, tally, &clear_road(Kind::Multilane, speed), [flow_rate].into_iter());
                }
            }
        }
    }
    let unseen: Vec<usize> = (1..=1_000).filter(|&i| seen[i] != [true, true]).collect();
    tally.equal(unseen, vec![1, 1_000], || "entries that no flow rate shows".to_string());
}

// Every speed of a kind with every flow rate up to capacity and the first above it.
pub fn full(method: &Method, kind: Kind) -> Tally {
    in_parts(|part| {
        let mut tally = Tally::default();
        for speed in kind.free_flow_speeds().filter(|speed| speed % PARTS == part) {
            curve(method, &mut tally, &clear_road(kind, speed), 0..=kind.capacity(speed) / 100 + 1);
        }
        tally
    })
}
