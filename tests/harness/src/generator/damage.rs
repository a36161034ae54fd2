//! Damage to reels and to files.

use super::random::Random;
use super::reel::{set_clock, tick_range, MOST_PACKETS};
use super::tables::close;
use super::Draft;
use crate::model::packet::{form, payload, pcr, pid, start_flag};
use crate::model::sections::crc;
use crate::model::{set_bits, Packet, Sheet, CLOCK_VALUES, KIND_CLOCK, KIND_SECTIONS};

/// Damages a reel, mostly at a place.
pub fn reel(random: &mut Random, draft: &mut Draft, place: usize) {
    match random.below(100) {
        0..=32 => header(random, draft, place),
        33..=59 => content(random, draft),
        60..=64 => several(random, draft),
        65..=76 => clock(random, draft),
        77..=84 => order(random, draft, place),
        85..=92 => pace(random, &mut draft.sheet),
        _ => {
            // A bit anywhere, or a byte.
            let at = random.index(188);
            let packet = &mut draft.packets[place];
            if random.percent(70) {
                packet[at] ^= 1 << random.below(8);
            } else {
                packet[at] = random.pick(&[0, 255, 0x47, 1, 128]);
            }
        }
    }
}

/// Header and adaptation field.
pub fn header(random: &mut Random, draft: &mut Draft, place: usize) {
    let unlisted = random.below(8192) as u16;
    let listed: Vec<u16> = draft.sheet.entries.iter().map(|e| e.pid).collect();
    let packet = &mut draft.packets[place];
    let small = random.below(8) as u8;
    match random.below(26) {
        0 => packet[0] ^= 1 << small,
        1 => packet[0] = random.byte(),
        2 => packet[1] |= 0x80,
        3 => packet[3] ^= random.pick(&[0x40, 0x80, 0xC0]),
        4 => packet[1] ^= 0x40,
        5 => packet[1] |= 0x1F,
        6 => set_bits(packet, 11, 13, u128::from(unlisted)),
        7 if !listed.is_empty() => {
            set_bits(packet, 11, 13, u128::from(random.pick(&listed)));
        }
        8 => set_bits(packet, 11, 13, 8191),
        // A null packet that is wrong in one of its ways.
        9 => *packet = odd_null(random),
        10 => set_bits(packet, 26, 2, u128::from(random.below(4))),
        11 => packet[3] &= 0xCF,
        // Counters.
        12..=15 => {
            let counter = packet[3] & 15;
            let step = random.pick(&[1, 15, 2, 8, small % 15 + 1]);
            packet[3] = (packet[3] & 0xF0) | ((counter + step) % 16);
        }
        16 => with_field(random, packet, |random, packet| {
            packet[4] = match random.below(4) {
                0 => packet[4].wrapping_add(1),
                1 => packet[4].wrapping_sub(1),
                2 => random.pick(&[0, 1, 6, 7, 181, 182, 183, 184, 255]),
                _ => random.byte(),
            }
        }),
        17 => with_field(random, packet, |random, packet| {
            packet[5] ^= random.pick(&[0x80, 0x08, 0x04, 0x02, 0x01]);
        }),
        18 => with_field(random, packet, |_, packet| packet[5] ^= 0x10),
        19 => with_field(random, packet, |random, packet| {
            // A stuffing byte, or the byte just past the field.
            let length = packet[4].clamp(2, 182) as usize;
            let at = match random.below(3) {
                0 => 6,
                1 => 4 + length,
                _ => 6 + random.index(length - 1),
            };
            packet[at] = random.pick(&[254, 0, 127]);
        }),
        // A field with a clock value, whatever the PID.
        20..=21 => {
            packet[3] |= 0x30;
            packet[1] &= 0xBF;
            let length = random.pick(&[6, 7, 7, 7, 8, 60]);
            packet[4] = length;
            packet[5] = 0x10;
            packet[6..5 + length as usize].fill(255);
            set_clock(packet, u128::from(random.below(CLOCK_VALUES as u64)));
            // Sometimes more than that is wrong.
            if random.percent(25) {
                packet[5] |= random.pick(&[0x80, 0x08, 0x01]);
            }
            if length > 8 && random.percent(50) {
                packet[4 + length as usize] = 0;
            }
            if random.percent(25) {
                set_bits(packet, 87, 9, 300);
            }
        }
        22 => with_field(random, packet, |random, packet| {
            let extension = random.pick(&[299, 300, 301, 511]);
            set_bits(packet, 87, 9, extension);
        }),
        // A field of just the greatest lengths, with a payload or without.
        23..=24 => {
            packet[1] &= 0xBF;
            packet[3] = packet[3] & 0x0F | random.pick(&[0x20, 0x30]);
            packet[4] = random.pick(&[181, 182, 183, 184]);
            packet[5] = 0;
            packet[6..].fill(255);
        }
        _ => packet[1] ^= 0x20, // transport_priority: no damage at all
    }
}

/// Changes the adaptation field; without one the packet gets one first, most times.
fn with_field(random: &mut Random, packet: &mut Packet, change: fn(&mut Random, &mut Packet)) {
    if packet[3] & 0x20 == 0 {
        if random.percent(30) {
            return;
        }
        packet[3] |= 0x30;
        packet[1] &= 0xBF;
        let length = random.within(1, 182) as usize;
        packet[4] = length as u8;
        packet[5] = 0;
        packet[6..5 + length].fill(255);
    }
    change(random, packet);
}

fn odd_null(random: &mut Random) -> Packet {
    let mut packet = [255; 188];
    packet[..4].copy_from_slice(&[0x47, 0x1F, 0xFF, 0x10]);
    match random.below(6) {
        0 => packet[1] |= 0x40,
        1 => packet[3] = 0x00,
        2 => packet[3] = 0x20,
        3 => packet[3] = 0x30,
        4 => packet[1] |= 0x80,
        _ => packet[3] |= random.pick(&[0x40, 0x80, 0xC0]),
    }
    packet
}

/// What sound packets carry: sections and PES headers.
fn content(random: &mut Random, draft: &mut Draft) {
    let sheet = draft.sheet.clone();
    let of_kind = |packet: &Packet, sections: bool| {
        let kind = sheet.kind(pid(packet));
        form(packet, &sheet).is_none()
            && payload(packet).is_some()
            && kind.is_some_and(|k| (k == KIND_SECTIONS) == sections)
    };
    let sections = random.percent(60);
    let heads = !sections && random.percent(85); // only where a PES packet begins
    let places: Vec<usize> = (0..draft.packets.len())
        .filter(|&i| of_kind(&draft.packets[i], sections))
        .filter(|&i| !heads || start_flag(&draft.packets[i]))
        .collect();
    if places.is_empty() {
        return;
    }
    let place = match random.below(4) {
        0 => places[0],
        1 => places[places.len() - 1],
        _ => random.pick(&places),
    };
    let packet = &mut draft.packets[place];
    let start = packet[1] & 0x40 != 0;
    let from = 188 - payload(packet).unwrap().len();
    let body = &mut packet[from..];
    if !sections {
        pes_header(random, body);
        return;
    }
    let small = random.pick(&[0, 1, 2, 3, 4, 11, 12]) % body.len();
    match random.below(16) {
        12 => {
            // Only stuffing, without a start.
            body.fill(255);
            packet[1] &= 0xBF;
        }
        // The pointer just past the payload, to its last byte, and to the one before.
        13 if start => body[0] = (body.len() - random.pick(&[1, 1, 2, 3]).min(body.len())) as u8,
        // One or more bytes too many before the section that starts here, with the pointer or not.
        14..=15 if start && (body[0] as usize) < body.len() => {
            let at = 1 + random.pick(&[0, body[0] as usize]);
            let times = random.pick(&[1, 1, 2, 20]).min(body.len() - at);
            body[at..].rotate_right(times);
            body[at..at + times].fill(random.pick(&[255, 255, 0]));
            if random.percent(80) {
                body[0] = body[0].saturating_add(times as u8);
            }
        }
        0 => body[0] = body[0].wrapping_add(random.pick(&[1, 255])),
        1 => body[0] = random.byte(),
        2 => body[small] ^= 1 << random.below(8),
        3 => {
            let at = body.len() - 1 - small;
            body[at] ^= 1 << random.below(8);
        }
        4..=5 => {
            let at = random.index(body.len());
            body[at] ^= 1 << random.below(8);
        }
        6 => packet[1] ^= 0x40,
        7 => body.fill(255),
        // The header of the section that starts here, in one of its fields.
        8..=11 if start && 1 + (body[0] as usize) + 15 < body.len() => {
            let from = 1 + body[0] as usize;
            let section = &mut body[from..];
            match random.below(6) {
                0 => section[0] = 255,
                1 => section[1] &= 0x7F,
                2 => set_bits(
                    section,
                    12,
                    12,
                    random.pick(&[8, 0, 1022, 1023, 4095, 9, 1021]),
                ),
                3 => section[2] = section[2].wrapping_add(random.pick(&[1, 255])),
                // A section of the least length in good order, or one byte shorter.
                _ => {
                    let length = random.pick(&[9, 9, 8]);
                    let whole = (3 + length).min(section.len());
                    section[0] &= 0x7F;
                    section[1] = 0xB0;
                    section[2] = length as u8;
                    close(&mut section[..whole]);
                    debug_assert_eq!(crc(&section[..whole]), 0);
                    section[whole..].fill(255);
                }
            }
        }
        _ => {
            // The same bytes, begun elsewhere.
            let at = random.index(body.len());
            body.rotate_left(at);
        }
    }
}

/// Several of counter, clock value and content in one packet.
fn several(random: &mut Random, draft: &mut Draft) {
    let sheet = &draft.sheet;
    let listed: Vec<usize> = (0..draft.packets.len())
        .filter(|&i| form(&draft.packets[i], sheet).is_none())
        .filter(|&i| sheet.kind(pid(&draft.packets[i])).is_some())
        .collect();
    let with_clock: Vec<usize> = listed
        .iter()
        .copied()
        .filter(|&i| pcr(&draft.packets[i]).is_some())
        .collect();
    let places = if random.percent(60) && !with_clock.is_empty() {
        &with_clock
    } else {
        &listed
    };
    if places.is_empty() {
        return;
    }
    let packet = &mut draft.packets[random.pick(places)];
    if random.percent(40) {
        packet[3] = packet[3] & 0xF0 | (packet[3] + 1 + random.below(15) as u8) & 15;
    }
    if let Some(value) = pcr(packet) {
        if random.percent(70) {
            let step = random.pick(&[1000, 50_000, 5_000_000]);
            set_clock(packet, (value + step) % CLOCK_VALUES);
        }
    }
    if let Some(payload) = payload(packet) {
        let from = 188 - payload.len();
        // Where a section's or a PES packet's head is likely to be.
        for _ in 0..random.below(3) {
            let at = from + random.index((188 - from).min(16));
            packet[at] ^= 1 << random.below(8);
        }
    }
}

fn pes_header(random: &mut Random, body: &mut [u8]) {
    if body.len() < 19 || random.percent(20) {
        let at = random.index(body.len().min(20));
        body[at] ^= 1 << random.below(8);
        return;
    }
    match random.below(10) {
        0 => body[random.index(3)] ^= 1,
        1 => body[3] = random.pick(&[0xBC, 0xBE, 0xBF, 0xF0]),
        8 => body[3] = random.pick(&[0xBD, 0xC0, 0xEF, 0xFF, 0]),
        2 => body[6] ^= random.pick(&[0x80, 0x40, 0xC0]),
        3 => body[7] = body[7] & 0x3F | random.pick(&[0x00, 0x40, 0x80, 0xC0]),
        4 => body[7] ^= 0x20,
        5 => {
            // One less than the stamps take, or any.
            let least = [0, 0, 5, 10][(body[7] >> 6) as usize];
            body[8] = random.pick(&[least.max(1) - 1, least.max(1) - 1, 0, 4, 9, 255]);
        }
        6 => body[9 + 5 * random.index(2)] ^= 1 << (4 + random.below(4)),
        7 => body[random.pick(&[9, 11, 13, 14, 16, 18])] ^= 1,
        _ => body[9 + random.index(10)] ^= 1 << random.below(8),
    }
}

/// Clock values.
fn clock(random: &mut Random, draft: &mut Draft) {
    let sheet = draft.sheet.clone();
    let places: Vec<usize> = (0..draft.packets.len())
        .filter(|&i| form(&draft.packets[i], &sheet).is_none())
        .filter(|&i| pcr(&draft.packets[i]).is_some())
        .collect();
    if places.is_empty() {
        return;
    }
    let chosen = random.index(places.len());
    let place = places[chosen];
    let value = pcr(&draft.packets[place]).unwrap();
    let earlier = places[..chosen]
        .iter()
        .rev()
        .find(|&&i| pid(&draft.packets[i]) == pid(&draft.packets[place]));
    let step = match random.below(6) {
        0 => random.pick(&[1, 30, 60, 100, 1000, 50_000]),
        1 => -random.pick(&[1, 30, 60, 100, 1000, 50_000]),
        2 => random.pick(&[2_700_000, 2_700_001, -2_700_000, -1_000_000]),
        3 => i128::from(random.below(CLOCK_VALUES as u64)),
        // Exactly at a border of a rule, or one past it.
        _ => match earlier {
            None => 300,
            Some(&before) => {
                let gap = (place - before) as u64;
                let (low, high) = tick_range(gap, u64::from(sheet.rate));
                let wanted = random.pick(&[low, low - 1, high, high + 1, 2_700_000, 2_700_001]);
                let now = value as i128 - pcr(&draft.packets[before]).unwrap() as i128;
                wanted - now
            }
        },
    };
    let moved = (value as i128 + step).rem_euclid(CLOCK_VALUES as i128);
    set_clock(&mut draft.packets[place], moved as u128);
    if random.percent(10) {
        // The clock entry gets a sibling without clock values.
        let kinds = &mut draft.sheet.entries;
        let at = random.index(kinds.len());
        kinds[at].kind = KIND_CLOCK;
    }
}

/// Packets taken out, doubled and exchanged.
fn order(random: &mut Random, draft: &mut Draft, place: usize) {
    let packets = &mut draft.packets;
    let other = random.index(packets.len());
    match random.below(6) {
        0 if packets.len() > 1 => {
            packets.remove(place);
        }
        1 if packets.len() < MOST_PACKETS => packets.insert(place, packets[place]),
        2 if packets.len() + 1 < MOST_PACKETS => {
            packets.insert(place, packets[place]);
            packets.insert(place, packets[place]);
        }
        3 => packets.swap(place, other),
        4 => packets.rotate_left(place),
        _ => packets[place] = packets[other],
    }
}

/// Rate, round length, and kinds.
fn pace(random: &mut Random, sheet: &mut Sheet) {
    let top = (CLOCK_VALUES / 300) as u64 - 1;
    let length = sheet.round_length / 300;
    match random.below(8) {
        0 => sheet.round_length = 300 * (length + 1).min(top),
        1 => sheet.round_length = 300 * length.saturating_sub(1),
        2 => sheet.round_length = 300 * (length + random.below(10_000)).min(top),
        3 => sheet.round_length = 300 * random.below(top + 1),
        4 => sheet.rate = sheet.rate.saturating_sub(sheet.rate / 1000 + 1).max(1),
        5 => sheet.rate = (sheet.rate + sheet.rate / 1000 + 1).min(10_000_000),
        6 => sheet.rate = random.magnitude(1, 10_000_000) as u32,
        _ => {
            if !sheet.entries.is_empty() {
                let at = random.index(sheet.entries.len());
                sheet.entries[at].kind = random.below(3) as u8;
            }
        }
    }
}

/// A file whose fields or length are wrong in one to three ways.
pub fn file(random: &mut Random, draft: &Draft) -> Vec<u8> {
    let mut parts = draft.parts();
    let times = random.pick(&[1, 1, 1, 2, 3]);
    let mut cut = 0;
    let mut added = Vec::new();
    for _ in 0..times {
        let entry = random.index(parts.entries.len().max(1));
        let small = 1 + random.below(4) as u32;
        match random.below(26) {
            0 => parts.mark[random.index(4)] ^= 1 << random.below(8),
            1 => parts.mark = random.pick(&[*b"LEER", *b"reel", [0; 4], *b"REEK"]),
            2 => cut = 1 + random.index(3),
            3 => cut = random.pick(&[4, 24, 188, 187, 189]),
            4 => added = vec![0; small as usize],
            5 => added = vec![0x47; 188],
            6 => parts.distance = 24 + 4 * 17,
            7 => parts.distance = parts.distance.wrapping_add(random.pick(&[1, 2, 4, 8])),
            8 => parts.distance = parts.distance.wrapping_sub(random.pick(&[1, 2, 4, 24])),
            9 => parts.distance = random.pick(&[0, 23, 20, 24, 88, 92, u32::MAX, 1 << 31]),
            10 => parts.count = parts.count.wrapping_add(random.pick(&[1, u32::MAX])),
            11 => parts.count = random.pick(&[0, 1_000_000_000, 1_000_000_001, u32::MAX, 348]),
            12 => {
                // No packet at all, and the file says so.
                parts.count = 0;
                parts.packets.clear();
            }
            13 => {
                let bytes = parts.packets.len() as u64;
                parts.packets.truncate(random.below(bytes) as usize);
            }
            14 => parts.packets.extend([255, 255, 255, 255]),
            15 => parts.rate = random.pick(&[0, 10_000_001, u32::MAX, 10_000_000, 1]),
            16 => parts.rate = random.next() as u32,
            17 => {
                let step = random.pick(&[1, 299, 150, 100, 60, 25]);
                parts.round_length = parts.round_length.wrapping_add(step);
            }
            18 => {
                let whole = CLOCK_VALUES as u64;
                let tops = [
                    299,
                    1,
                    whole,
                    whole - 300,
                    whole - 299,
                    whole + 300,
                    u64::MAX,
                    1 << 63,
                ];
                parts.round_length = random.pick(&tops);
            }
            19..=25 if parts.entries.is_empty() || random.percent(15) => {
                // The seventeenth, or one more that is not told of in the packets.
                let wanted = if random.percent(30) {
                    17
                } else {
                    parts.entries.len() + 1
                };
                while parts.entries.len() < wanted {
                    let pid = (random.below(8191) as u16).to_be_bytes();
                    parts
                        .entries
                        .push([pid[0], pid[1], random.below(4) as u8, 0]);
                }
                parts.distance = 24 + 4 * parts.entries.len() as u32;
            }
            19 => parts.entries[entry][..2].copy_from_slice(&[0x1F, 0xFF]),
            20 => parts.entries[entry][0] |= random.pick(&[0x20, 0x40, 0x80, 0xE0]),
            21 => parts.entries[entry][2] = random.pick(&[3, 4, 128, 255]),
            22 => parts.entries[entry][3] = random.pick(&[1, 128, 255]),
            23 if parts.entries.len() < 16 => {
                // The same PID once more, at the end or next to it, perhaps with another kind.
                let mut twin = parts.entries[entry];
                twin[2] = random.below(3) as u8;
                let at = random.pick(&[0, entry, parts.entries.len()]);
                parts.entries.insert(at, twin);
                parts.distance += 4;
            }
            24 => {
                let other = random.index(parts.entries.len());
                parts.entries[entry] = parts.entries[other];
            }
            _ => {
                let at = random.index(4);
                parts.entries[entry][at] ^= 1 << random.below(8);
            }
        }
    }
    let mut file = parts.file();
    if random.percent(10) {
        // A bit in entries or trailer.
        let at = file.len() - 1 - random.index(file.len().min(parts.tail().len()));
        file[at] ^= 1 << random.below(8);
    }
    file.truncate(file.len().saturating_sub(cut));
    if random.percent(50) {
        file.extend(added);
    } else {
        added.extend(file);
        file = added;
    }
    file
}

/// Bytes that never were a reel, from none to a few hundred, perhaps with a closing mark; and
/// files as long as may be.
pub fn noise(random: &mut Random) -> Vec<u8> {
    let length = match random.below(6) {
        0 => random.below(24),
        1 => random.pick(&[0, 1, 4, 23, 24, 25, 187, 188, 375]),
        2 => random.pick(&[65_535, 65_536, 65_537]),
        _ => random.below(600),
    } as usize;
    let mut bytes: Vec<u8> = (0..length).map(|_| random.byte()).collect();
    let ending = [0, 0, 0, 1, 0, 0, 0, 24, 0x52, 0x45, 0x45, 0x4C];
    let kept = random.pick(&[0, 4, 8, 12]).min(length);
    bytes[length - kept..].copy_from_slice(&ending[12 - kept..]);
    bytes
}

/// Files over the limit, right but for their length or not.
pub fn too_long(random: &mut Random) -> Vec<u8> {
    let entries: Vec<[u8; 4]> = (0..random.below(17) as u8).map(|i| [0, i, 0, 0]).collect();
    let count = random.pick(&[349, 350, 400]);
    let mut filler = [255; 188];
    filler[..4].copy_from_slice(&[0x47, 0x1F, 0xFF, 0x10]);
    let parts = super::Parts {
        packets: vec![filler; count].concat(),
        distance: 24 + 4 * entries.len() as u32,
        entries,
        rate: 188_000,
        round_length: 27_000,
        count: count as u32,
        mark: if random.percent(80) { *b"REEL" } else { [0; 4] },
    };
    parts.file()
}
