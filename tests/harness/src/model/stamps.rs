//! The beginning of a PES packet, rule 30, and where its time stamps are.

use super::packet::{payload, pid, start_flag};
use super::{bits, Packet, Sheet, KIND_SECTIONS};

/// Whether the packet is one that rule 30 speaks of: the start of a PES packet.
fn begins_pes(packet: &Packet, sheet: &Sheet) -> bool {
    let kind = sheet.kind(pid(packet));
    kind.is_some() && kind != Some(KIND_SECTIONS) && start_flag(packet) && payload(packet).is_some()
}

/// What is found at a sound packet.
pub fn finding(packet: &Packet, sheet: &Sheet) -> Option<u32> {
    if begins_pes(packet, sheet) && stamps(payload(packet)?).is_none() {
        Some(30)
    } else {
        None
    }
}

/// The bit places in the packet of the stamps that a sound packet carries by the rule; none if it
/// breaks it.
pub fn stamp_places(packet: &Packet, sheet: &Sheet) -> Vec<usize> {
    if !begins_pes(packet, sheet) {
        return Vec::new();
    }
    let bytes = payload(packet).unwrap();
    let before = 8 * (188 - bytes.len());
    let found = stamps(bytes).unwrap_or_default();
    found.iter().map(|byte| before + 8 * byte).collect()
}

/// The payload bytes at which its stamps begin, or nothing if the payload breaks the rule.
fn stamps(payload: &[u8]) -> Option<Vec<usize>> {
    if payload.len() < 9 || payload[..3] != [0, 0, 1] {
        return None;
    }
    let stream_id = payload[3];
    if stream_id != 0xBD && !(0xC0..=0xEF).contains(&stream_id) {
        return None;
    }
    if bits(payload, 48, 2) != 0b10 {
        return None;
    }
    // The prefix of each stamp that the flags announce.
    let prefixes: &[u128] = match bits(payload, 56, 2) {
        0b00 => &[],
        0b10 => &[0b0010],
        0b11 => &[0b0011, 0b0001],
        _ => return None,
    };
    let escr_flag = bits(payload, 58, 1) == 1;
    let needed = 5 * prefixes.len();
    if escr_flag || (payload[8] as usize) < needed || payload.len() < 9 + needed {
        return None;
    }
    let mut places = Vec::new();
    for (i, prefix) in prefixes.iter().enumerate() {
        let stamp = &payload[9 + 5 * i..][..5];
        let markers = [7, 23, 39].iter().all(|&m| bits(stamp, m, 1) == 1);
        if bits(stamp, 0, 4) != *prefix || !markers {
            return None;
        }
        places.push(9 + 5 * i);
    }
    Some(places)
}

/// The 33 bits of a stamp stand in three groups between the marker bits.
const GROUPS: [(usize, usize); 3] = [(4, 3), (8, 15), (24, 15)];

/// The value of the stamp at a bit place.
pub fn stamp(bytes: &[u8], place: usize) -> u128 {
    GROUPS.iter().fold(0, |value, &(from, count)| {
        (value << count) + bits(bytes, place + from, count)
    })
}

/// Writes a stamp's value, leaving prefix and markers.
pub fn set_stamp(bytes: &mut [u8], place: usize, value: u128) {
    let mut below = 33;
    for (from, count) in GROUPS {
        below -= count;
        super::set_bits(bytes, place + from, count, value >> below);
    }
}
