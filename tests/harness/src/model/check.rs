//! Continuity, what the watches are told, and the first breach of a number of rounds.

use super::clock::{self, ClockValue};
use super::packet::{counter, form, is_null, payload, pcr, pid, start_flag};
use super::restamp;
use super::sections::{self, Brought};
use super::stamps;
use super::{Packet, Sheet, KIND_CLOCK, KIND_SECTIONS};

/// A broken rule, with the round and the packet in the reel.
#[derive(Clone, Copy, Debug, PartialEq, Eq)]
pub struct Breach {
    pub round: usize,
    pub packet: usize,
    pub rule: u32,
}

/// Whether a packet is sound and not null: what continuity speaks of.
fn counts(packet: &Packet, sheet: &Sheet) -> bool {
    form(packet, sheet).is_none() && !is_null(packet)
}

/// The place of the previous sound packet of the same PID.
fn predecessor(run: &[Packet], sheet: &Sheet, place: usize) -> Option<usize> {
    let same_pid = |i: &usize| pid(&run[*i]) == pid(&run[place]) && form(&run[*i], sheet).is_none();
    (0..place).rev().find(same_pid)
}

/// For every place, whether the packet is a copy: equal to its predecessor, which has a payload
/// and is itself no copy.
pub fn copies(run: &[Packet], sheet: &Sheet) -> Vec<bool> {
    let mut copy: Vec<bool> = Vec::new();
    for place in 0..run.len() {
        let is_copy = counts(&run[place], sheet)
            && predecessor(run, sheet, place).is_some_and(|before| {
                run[before] == run[place] && payload(&run[before]).is_some() && !copy[before]
            });
        copy.push(is_copy);
    }
    copy
}

/// Whether the packet at a place, sound and not null, breaks rule 25.
fn breaks_continuity(run: &[Packet], sheet: &Sheet, copy: &[bool], place: usize) -> bool {
    let Some(before) = predecessor(run, sheet, place) else {
        return false;
    };
    let packet = &run[place];
    let step = match payload(packet) {
        None => 0,
        Some(_) if copy[place] => return false,
        Some(_) => 1,
    };
    counter(packet) != (counter(&run[before]) + step) % 16
}

/// The clock's finding at a place, `told` saying which places the watches hear of.
fn clock_finding(run: &[Packet], sheet: &Sheet, told: &[bool], place: usize) -> Option<u32> {
    let own = pid(&run[place]);
    if sheet.kind(own) != Some(KIND_CLOCK) {
        return None;
    }
    let at = |i: usize| pcr(&run[i]).map(|value| ClockValue { place: i, value });
    let later = at(place)?;
    let earlier = (0..place)
        .rev()
        .filter(|&i| told[i] && pid(&run[i]) == own)
        .find_map(at)?;
    clock::finding(earlier, later, sheet.rate)
}

/// The places at which the sections of some PID first offend, with the rule.
fn section_offences(run: &[Packet], sheet: &Sheet, told: &[bool]) -> Vec<(usize, u32)> {
    let mut offences = Vec::new();
    for entry in sheet.entries.iter().filter(|e| e.kind == KIND_SECTIONS) {
        let mut places = Vec::new();
        let mut brought = Vec::new();
        for place in 0..run.len() {
            if told[place] && pid(&run[place]) == entry.pid {
                if let Some(payload) = payload(&run[place]) {
                    places.push(place);
                    brought.push(Brought {
                        start: start_flag(&run[place]),
                        payload,
                    });
                }
            }
        }
        if let Some((index, rule)) = sections::first_offence(&brought) {
            offences.push((places[index], rule));
        }
    }
    offences
}

/// Whether a PID of kind 2 had no clock value on a sound packet of the reel (rule 31).
fn lacks_clock(reel: &[Packet], sheet: &Sheet) -> bool {
    sheet
        .entries
        .iter()
        .filter(|e| e.kind == KIND_CLOCK)
        .any(|entry| {
            !reel.iter().any(|packet| {
                form(packet, sheet).is_none() && pid(packet) == entry.pid && pcr(packet).is_some()
            })
        })
}

/// The first breach in a number of rounds, by round and then place. Two rounds are the check.
pub fn first_breach(reel: &[Packet], sheet: &Sheet, rounds: usize) -> Option<Breach> {
    let run = restamp::run(reel, sheet, rounds);
    let copy = copies(&run, sheet);
    // Every sound packet that is neither null nor a copy is told to the watches.
    let told: Vec<bool> = (0..run.len())
        .map(|i| counts(&run[i], sheet) && !copy[i])
        .collect();
    let section_offences = section_offences(&run, sheet, &told);

    let rule_at = |place: usize| {
        let packet = &run[place];
        if let Some(rule) = form(packet, sheet) {
            return Some(rule);
        }
        if is_null(packet) {
            return None;
        }
        if breaks_continuity(&run, sheet, &copy, place) {
            return Some(25);
        }
        if !told[place] {
            return None;
        }
        let section = section_offences.iter().find(|o| o.0 == place).map(|o| o.1);
        clock_finding(&run, sheet, &told, place)
            .or(section)
            .or(stamps::finding(packet, sheet))
    };

    for round in 0..rounds {
        for packet in 0..reel.len() {
            if let Some(rule) = rule_at(round * reel.len() + packet) {
                return Some(Breach {
                    round,
                    packet,
                    rule,
                });
            }
        }
        if round == 0 && lacks_clock(reel, sheet) {
            return Some(Breach {
                round: 0,
                packet: reel.len(),
                rule: 31,
            });
        }
    }
    None
}
