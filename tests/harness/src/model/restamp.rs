//! The rounds of a reel: what moves from one to the next.

use super::check::copies;
use super::packet::{counter, form, is_null, payload, pcr, pid};
use super::stamps::{set_stamp, stamp, stamp_places};
use super::{set_bits, Packet, Sheet, CLOCK_VALUES};

/// The tally of a PID: its sound packets in the reel that have a payload and are no copies.
pub fn tally(reel: &[Packet], sheet: &Sheet, wanted: u16) -> u128 {
    let copy = copies(reel, sheet);
    let counted = |i: &usize| {
        let packet = &reel[*i];
        form(packet, sheet).is_none()
            && pid(packet) == wanted
            && payload(packet).is_some()
            && !copy[*i]
    };
    (0..reel.len()).filter(counted).count() as u128
}

/// A packet as round `round` brings it, `tally` being that of its PID.
fn restamped(packet: &Packet, sheet: &Sheet, round: u128, tally: u128) -> Packet {
    let mut moved = *packet;
    if form(packet, sheet).is_some() || is_null(packet) {
        return moved; // only sound packets of listed PIDs change
    }
    let ticks = round * u128::from(sheet.round_length);
    set_bits(&mut moved, 28, 4, (counter(packet) + round * tally) % 16);
    if let Some(value) = pcr(packet) {
        let value = (value + ticks) % CLOCK_VALUES;
        set_bits(&mut moved, 48, 33, value / 300);
        set_bits(&mut moved, 87, 9, value % 300);
    }
    for place in stamp_places(packet, sheet) {
        let value = (stamp(packet, place) + ticks / 300) % (1 << 33);
        set_stamp(&mut moved, place, value);
    }
    moved
}

/// The first `rounds` rounds, one after another.
pub fn run(reel: &[Packet], sheet: &Sheet, rounds: usize) -> Vec<Packet> {
    let tallies: Vec<(u16, u128)> = sheet
        .entries
        .iter()
        .map(|e| (e.pid, tally(reel, sheet, e.pid)))
        .collect();
    let tally_of = |packet: &Packet| {
        let found = tallies.iter().find(|t| t.0 == pid(packet));
        found.map_or(0, |t| t.1)
    };
    let mut run = Vec::new();
    for round in 0..rounds {
        for packet in reel {
            run.push(restamped(packet, sheet, round as u128, tally_of(packet)));
        }
    }
    run
}
