//! What approved reels are made of, so that one sees which shapes were tried.

use crate::model::check::copies;
use crate::model::file::ReelFile;
use crate::model::packet::{is_null, payload, pcr, pid, start_flag};
use crate::model::stamps::{stamp, stamp_places};
use crate::model::{bits, Packet, CLOCK_VALUES, KIND_CLOCK, KIND_PES, KIND_SECTIONS};

/// Every shape that must occur among the approved reels.
pub const SHAPES: [&str; 25] = [
    "no entries",
    "16 entries",
    "one packet",
    "348 packets",
    "a null packet",
    "a packet without payload",
    "a copy",
    "a PES stream (kind 0)",
    "a PES start without stamps",
    "a PES start with PTS",
    "a PES start with PTS and DTS",
    "a stamp that wraps in round 1",
    "a clock PID (kind 2)",
    "several clock PIDs",
    "several clock values on a PID",
    "a clock value on a packet without payload",
    "a clock wrap within the reel",
    "a clock wrap at the seam",
    "sections (kind 1)",
    "a section over several packets",
    "a section over the seam",
    "a pointer above 0",
    "several sections in a packet",
    "section_length 9",
    "section_length 1,021",
];

/// The shapes of an approved reel.
pub fn shapes(reel: &ReelFile) -> Vec<&'static str> {
    let sheet = &reel.sheet;
    let packets = &reel.packets;
    let kinds = |kind: u8| sheet.entries.iter().filter(|e| e.kind == kind).count();
    let copy = copies(packets, sheet);
    let mut found = Vec::new();
    let mut note = |shape: &'static str, there: bool| {
        assert!(SHAPES.contains(&shape), "{shape} is listed");
        if there {
            found.push(shape);
        }
    };
    note("no entries", sheet.entries.is_empty());
    note("16 entries", sheet.entries.len() == 16);
    note("one packet", packets.len() == 1);
    note("348 packets", packets.len() == 348);
    note("a null packet", packets.iter().any(is_null));
    note(
        "a packet without payload",
        packets.iter().any(|p| payload(p).is_none()),
    );
    note("a copy", copy.contains(&true));
    note("several clock PIDs", kinds(KIND_CLOCK) > 1);

    for entry in &sheet.entries {
        let own: Vec<&Packet> = (0..packets.len())
            .filter(|&i| pid(&packets[i]) == entry.pid && !copy[i])
            .map(|i| &packets[i])
            .collect();
        if own.is_empty() {
            continue;
        }
        if entry.kind == KIND_SECTIONS {
            note("sections (kind 1)", own.iter().any(|p| start_flag(p)));
            section_shapes(&own, &mut note);
            continue;
        }
        note("a PES stream (kind 0)", entry.kind == KIND_PES);
        for packet in own.iter().filter(|p| start_flag(p)) {
            let places = stamp_places(packet, sheet);
            note("a PES start without stamps", places.is_empty());
            note("a PES start with PTS", places.len() == 1);
            note("a PES start with PTS and DTS", places.len() == 2);
            let moved = u128::from(sheet.round_length / 300);
            let wraps = |&place: &usize| stamp(*packet, place) + moved >= 1 << 33;
            note("a stamp that wraps in round 1", places.iter().any(wraps));
        }
        if entry.kind == KIND_CLOCK {
            note("a clock PID (kind 2)", true);
            let bare = |p: &Packet| pcr(p).is_some() && payload(p).is_none();
            note(
                "a clock value on a packet without payload",
                own.iter().any(|p| bare(p)),
            );
            let values: Vec<u128> = own.iter().filter_map(|p| pcr(p)).collect();
            note("several clock values on a PID", values.len() > 1);
            let within = values.windows(2).any(|pair| pair[1] < pair[0]);
            note("a clock wrap within the reel", within);
            let next = (values[0] + u128::from(sheet.round_length)) % CLOCK_VALUES;
            note("a clock wrap at the seam", next < values[values.len() - 1]);
        }
    }
    found
}

fn section_shapes(own: &[&Packet], note: &mut impl FnMut(&'static str, bool)) {
    let Some(first) = own.iter().position(|p| start_flag(p)) else {
        return;
    };
    for (i, packet) in own.iter().enumerate() {
        let Some(payload) = payload(packet) else {
            continue;
        };
        if !start_flag(packet) {
            note("a section over several packets", i > first);
            note("a section over the seam", i < first);
            continue;
        }
        let pointer = payload[0] as usize;
        note("a pointer above 0", pointer > 0);
        note("a section over the seam", pointer > 0 && i == first);
        note("a section over several packets", pointer > 0 && i != first);
        let section = &payload[1 + pointer..];
        if section.len() >= 3 {
            let length = bits(section, 12, 12) as usize;
            note("section_length 9", length == 9);
            note("section_length 1,021", length == 1021);
            let next = section.get(3 + length);
            note(
                "several sections in a packet",
                next.is_some_and(|&b| b != 255),
            );
        }
    }
}
