// CALL-1, CALL-2, CALL-6 to CALL-10, FORM-1: the eight calls of include/marehour.h.

use crate::second::forecast::Ranges;
use crate::second::survey::Unit;

extern "C" {
    fn marehour_answer(line: *const u8, line_length: usize, answer: *mut u8, answer_length: usize) -> i32;
    fn marehour_lanes(line: *const u8, line_length: usize, letter: u32, answer: *mut u8, answer_length: usize) -> i32;
    fn marehour_tries(line: *const u8, line_length: usize) -> i32;
    fn marehour_survey_mph(speed: f32, cars: u32, flow: u32) -> i32;
    fn marehour_survey_kmh(speed: f32, cars: u32, flow: u32) -> i32;
    fn marehour_day(
        line: *const u8,
        line_length: usize,
        demands: *const u64,
        demand_count: usize,
        answers: *mut u64,
        answers_length: usize,
    ) -> i32;
    fn marehour_daily(
        line: *const u8,
        line_length: usize,
        daily_traffic: u64,
        peak_share: u32,
        direction_share: u32,
        figures: *mut u64,
        figures_length: usize,
    ) -> i32;
    fn marehour_forecast(
        line: *const u8,
        line_length: usize,
        demand_low: u64,
        demand_high: u64,
        share_low: u64,
        share_high: u64,
        factor_low: u64,
        factor_high: u64,
        figures: *mut u64,
        figures_length: usize,
    ) -> i32;
}

pub fn answer(line: &[u8], buffer: &mut [u8]) -> i32 {
    // Safety: both pointers come with the lengths of what they point to.
    unsafe { marehour_answer(line.as_ptr(), line.len(), buffer.as_mut_ptr(), buffer.len()) }
}

pub fn lanes(line: &[u8], letter: u32, buffer: &mut [u8]) -> i32 {
    // Safety: as above.
    unsafe { marehour_lanes(line.as_ptr(), line.len(), letter, buffer.as_mut_ptr(), buffer.len()) }
}

pub fn tries(line: &[u8]) -> i32 {
    // Safety: as above.
    unsafe { marehour_tries(line.as_ptr(), line.len()) }
}

pub fn survey(bits: u32, unit: Unit, cars: u32, flow: u32) -> i32 {
    let speed = f32::from_bits(bits);
    // Safety: no memory is lent.
    unsafe {
        match unit {
            Unit::MilesPerHour => marehour_survey_mph(speed, cars, flow),
            Unit::KilometresPerHour => marehour_survey_kmh(speed, cars, flow),
        }
    }
}

pub fn day(line: &[u8], demands: &[u64], answers: &mut [u64]) -> i32 {
    // Safety: the three pointers come with the lengths of what they point to.
    unsafe { marehour_day(line.as_ptr(), line.len(), demands.as_ptr(), demands.len(), answers.as_mut_ptr(), answers.len()) }
}

pub fn daily(line: &[u8], daily_traffic: u64, peak_share: u32, direction_share: u32, figures: &mut [u64]) -> i32 {
    let (at, length) = (figures.as_mut_ptr(), figures.len());
    // Safety: both pointers come with the lengths of what they point to.
    unsafe { marehour_daily(line.as_ptr(), line.len(), daily_traffic, peak_share, direction_share, at, length) }
}

pub fn forecast(line: &[u8], ranges: &Ranges, figures: &mut [u64]) -> i32 {
    let Ranges { demand: [demand_low, demand_high], share: [share_low, share_high], factor: [factor_low, factor_high] } = *ranges;
    let (at, length) = (figures.as_mut_ptr(), figures.len());
    // Safety: as above.
    unsafe {
        marehour_forecast(line.as_ptr(), line.len(), demand_low, demand_high, share_low, share_high, factor_low, factor_high, at, length)
    }
}

// TEXT-2, TEXT-3: the answer to a line as text without its newline, or X and the refusal, as los prints it.
pub fn answer_text(line: &[u8]) -> String {
    let mut buffer = [0; 64];
    let result = answer(line, &mut buffer);
    text(result, &buffer)
}

pub fn lanes_text(line: &[u8], letter: u32) -> String {
    let mut buffer = [0; 64];
    let result = lanes(line, letter, &mut buffer);
    text(result, &buffer)
}

// CALL-3: what a call handed back and wrote, in the form of los.
pub fn text(result: i32, buffer: &[u8]) -> String {
    if result < 0 {
        return format!("X\t{}", -i64::from(result));
    }
    let written = buffer.get(..result as usize).unwrap_or(b"more than the buffer\n");
    String::from_utf8_lossy(written.strip_suffix(b"\n").unwrap_or(b"no newline")).into_owned()
}
