//! Two successive clock values of a PID, rules 26 and 27.

use super::CLOCK_VALUES;

/// A clock value and the place in the run of the packet that brought it.
#[derive(Clone, Copy, Debug)]
pub struct ClockValue {
    pub place: usize,
    pub value: u128,
}

/// What is found at `later`, `earlier` being the value before it on the same PID.
pub fn finding(earlier: ClockValue, later: ClockValue, rate: u32) -> Option<u32> {
    let ticks = (later.value + CLOCK_VALUES - earlier.value) % CLOCK_VALUES;
    let places = later.place - earlier.place;
    if ticks > 2_700_000 || !(1..=10_000).contains(&places) {
        return Some(26);
    }

    let rate = i128::from(rate);
    let ticks = ticks as i128;
    let bytes = 188 * places as i128;
    let not_too_fast = (bytes - 1) * 2_700_000_000_000 <= rate * (100_003 * ticks + 2_700_000);
    let not_too_slow = rate * 99_997 * ticks <= (bytes + 1) * 2_700_000_000_000 + rate * 2_700_000;
    if not_too_fast && not_too_slow {
        None
    } else {
        Some(27)
    }
}
