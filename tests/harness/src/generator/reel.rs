//! Reels that are meant to be right, of every shape.

use super::random::Random;
use super::tables;
use super::Draft;
use crate::model::stamps::set_stamp;
use crate::model::{
    set_bits, Entry, Packet, Sheet, CLOCK_VALUES, KIND_CLOCK, KIND_PES, KIND_SECTIONS, NULL_PID,
};

/// The most packets that a file within the report's limit can hold.
pub const MOST_PACKETS: usize = 348;

/// What a place of the reel is to hold.
#[derive(Clone, Copy, PartialEq)]
enum Slot {
    Null,
    /// A packet of the entry with this index.
    Own {
        row: usize,
        payload: bool,
        clock: bool,
    },
    /// A copy of the packet before it on its PID.
    Copy {
        row: usize,
        of: usize,
    },
}

/// The ticks that pass while so many packets are sent.
pub fn ticks(packets: u64, rate: u64) -> u64 {
    let exact = u128::from(packets) * 188 * 27_000_000;
    ((exact + u128::from(rate) / 2) / u128::from(rate)) as u64
}

/// A reel of at most `most` packets.
pub fn reel(random: &mut Random, most: usize) -> Draft {
    let count = reel_size(random, most);
    let entries = entries(random, count);
    let (rate, round_length, clock_gap) = pace(random, &entries, count);
    let slots = slots(random, &entries, count, clock_gap);

    let mut packets = vec![[0u8; 188]; count];
    let mut payload_sizes = vec![0usize; count];
    for place in 0..count {
        if let Slot::Null = slots[place] {
            packets[place] = null_packet(random);
        }
    }
    for (row, entry) in entries.iter().enumerate() {
        let own: Vec<usize> = (0..count)
            .filter(|&i| matches!(slots[i], Slot::Own { row: r, .. } if r == row))
            .collect();
        payloads(
            random,
            entry,
            &own,
            &slots,
            &mut packets,
            &mut payload_sizes,
        );
        if entry.kind == KIND_CLOCK {
            clock_values(random, &own, &slots, &mut packets, count, rate);
        }
        // Counters, and the copies.
        let mut counter = random.below(16) as u8;
        let mut fresh = true;
        for place in 0..count {
            match slots[place] {
                Slot::Own {
                    row: r, payload, ..
                } if r == row => {
                    if payload && !fresh {
                        counter = (counter + 1) % 16;
                    }
                    fresh = false;
                    packets[place][3] |= counter;
                }
                Slot::Copy { row: r, of } if r == row => packets[place] = packets[of],
                _ => {}
            }
        }
    }
    Draft {
        packets,
        sheet: Sheet {
            entries,
            rate: rate as u32,
            round_length,
        },
    }
}

fn reel_size(random: &mut Random, most: usize) -> usize {
    let size = match random.below(100) {
        0..=4 => 1,
        5..=39 => random.within(2, 10),
        40..=84 => random.within(5, 60),
        85..=97 => random.within(30, 200),
        98 => random.within(200, MOST_PACKETS as u64),
        _ => MOST_PACKETS as u64,
    };
    (size as usize).min(most)
}

fn entries(random: &mut Random, count: usize) -> Vec<Entry> {
    let number = match random.below(20) {
        0 => 0,
        1..=11 => random.within(1, 3),
        12..=17 => random.within(1, 8),
        18 => random.within(8, 16),
        _ => 16,
    };
    let mut entries: Vec<Entry> = Vec::new();
    let mut clocks = 0;
    while entries.len() < number as usize {
        let pid = match random.below(4) {
            0 => random.pick(&[0, 1, 0x11, 0x100, 0x1FFE, 0x1FFD, 0x1000, 255, 256]),
            _ => random.below(8191) as u16,
        };
        if entries.iter().any(|e| e.pid == pid) {
            continue;
        }
        let mut kind = random.pick(&[KIND_PES, KIND_SECTIONS, KIND_SECTIONS, KIND_CLOCK]);
        // Every clock PID needs a packet of its own for its clock values.
        if kind == KIND_CLOCK && (clocks + 1 > count || clocks >= 4) {
            kind = KIND_PES;
        }
        clocks += usize::from(kind == KIND_CLOCK);
        entries.push(Entry { pid, kind });
    }
    entries
}

/// Byte rate, round length, and how far apart in places the clock values may be.
fn pace(random: &mut Random, entries: &[Entry], count: usize) -> (u64, u64, usize) {
    if !entries.iter().any(|e| e.kind == KIND_CLOCK) {
        // Without a clock every rate and length will do.
        let rate = match random.below(8) {
            0 => 1,
            1 => 10_000_000,
            _ => random.magnitude(1, 10_000_000),
        };
        let top = (CLOCK_VALUES / 300) as u64 - 1;
        let length = match random.below(8) {
            0 => 0,
            1 => 300,
            2 => 300 * top,
            _ => 300 * random.magnitude(1, top),
        };
        return (rate, length, count);
    }
    // Now the length is the time the reel takes, and no two clock values may be more than
    // 2,700,000 ticks apart.
    let gap = match random.below(10) {
        0..=6 => count,
        _ => 1 + random.index(count),
    };
    let longest = (2_700_000 * count / (gap + gap / 8)).min(2_700_000 * 340) as u64;
    let shortest = (count as u64 * 188 * 27).div_ceil(10) + 300; // ticks at 10,000,000 bytes/s
    let mut length = match random.below(12) {
        0 => 2_700_000,
        1 => 2_700_000 - 300 * random.below(10),
        2 => 2_700_300,
        _ => random.magnitude(shortest, longest.max(shortest)),
    };
    length = length.max(shortest).div_ceil(300) * 300;
    let bytes = count as u128 * 188 * 27_000_000;
    let mut rate = ((bytes + u128::from(length) / 2) / u128::from(length)) as u64;
    if random.percent(10) {
        // Near the borders of the rule for a single clock value.
        rate = rate + random.below(rate / 2000 + 40) - (rate / 4000 + 20).min(rate - 1);
    }
    (rate.clamp(1, 10_000_000), length, gap)
}

fn slots(random: &mut Random, entries: &[Entry], count: usize, gap: usize) -> Vec<Slot> {
    let mut slots: Vec<Option<Slot>> = vec![None; count];
    // Clock values first: for each clock PID one in every stretch of `gap` places.
    for (row, entry) in entries.iter().enumerate() {
        if entry.kind != KIND_CLOCK || random.percent(2) {
            continue;
        }
        let mut wanted = random.index(gap);
        while wanted < count {
            let free = (0..count)
                .map(|i| (wanted + i) % count)
                .find(|&i| slots[i].is_none());
            if let Some(place) = free {
                let payload = random.percent(80);
                slots[place] = Some(Slot::Own {
                    row,
                    payload,
                    clock: true,
                });
            }
            wanted += gap;
        }
    }
    let null_share = random.pick(&[0, 5, 10, 40]);
    let bare_share = random.pick(&[0, 5, 20]);
    let copy_share = random.pick(&[0, 5, 20]);
    let clock_share = random.pick(&[0, 10, 60]);
    // Some entries stay without packets.
    let used: Vec<usize> = (0..entries.len()).filter(|_| random.percent(85)).collect();
    // The last slot of each row, if it can be copied.
    let mut copied: Vec<Option<usize>> = vec![None; entries.len()];
    for place in 0..count {
        if slots[place].is_none() {
            slots[place] = Some(if used.is_empty() || random.percent(null_share) {
                Slot::Null
            } else {
                let row = random.pick(&used);
                match copied[row] {
                    Some(of) if random.percent(copy_share) => Slot::Copy { row, of },
                    _ => Slot::Own {
                        row,
                        payload: !random.percent(bare_share),
                        clock: entries[row].kind == KIND_CLOCK && random.percent(clock_share),
                    },
                }
            });
        }
        match slots[place] {
            Some(Slot::Own { row, payload, .. }) => copied[row] = payload.then_some(place),
            Some(Slot::Copy { row, .. }) => copied[row] = None,
            _ => {}
        }
    }
    slots.into_iter().map(|s| s.unwrap_or(Slot::Null)).collect()
}

fn null_packet(random: &mut Random) -> Packet {
    let mut packet = [255; 188];
    packet[..4].copy_from_slice(&[0x47, 0x1F, 0xFF, 0x10]);
    debug_assert_eq!(NULL_PID, 0x1FFF);
    if random.percent(50) {
        // Counter and payload are free.
        packet[3] |= random.below(16) as u8;
        packet[4..].fill_with(|| random.byte());
    }
    packet
}

/// Headers, adaptation fields and payloads of the packets of one entry at its `own` places.
fn payloads(
    random: &mut Random,
    entry: &Entry,
    own: &[usize],
    slots: &[Slot],
    packets: &mut [Packet],
    sizes: &mut [usize],
) {
    let field_share = random.pick(&[5, 30, 80]);
    let with_payload = |place: usize| matches!(slots[place], Slot::Own { payload: true, .. });
    let with_clock = |place: usize| matches!(slots[place], Slot::Own { clock: true, .. });

    // How much room each payload has; the adaptation field takes the rest.
    for &place in own {
        let least = if with_clock(place) { 7 } else { 0 };
        sizes[place] = if !with_payload(place) {
            0
        } else if with_clock(place) || random.percent(field_share) {
            let length = match random.below(10) {
                0..=2 => random.pick(&[0, 1, 2, 6, 7, 8]),
                3 => 182,
                4 => random.within(160, 182),
                _ => random.within(0, 100),
            };
            183 - (length as usize).max(least)
        } else {
            184
        };
    }
    let carrying: Vec<usize> = own.iter().copied().filter(|&p| with_payload(p)).collect();
    let contents = if entry.kind == KIND_SECTIONS {
        let mut room: Vec<usize> = carrying.iter().map(|&p| sizes[p]).collect();
        let laid = tables::lay(random, &mut room);
        carrying
            .iter()
            .zip(room)
            .for_each(|(&p, size)| sizes[p] = size);
        laid
    } else {
        carrying
            .iter()
            .map(|&p| pes_payload(random, sizes[p]))
            .collect()
    };

    for &place in own {
        let packet = &mut packets[place];
        packet[0] = 0x47;
        set_bits(packet, 11, 13, u128::from(entry.pid));
        if random.percent(10) {
            packet[1] |= 0x20; // transport_priority is free
        }
        let control = match sizes[place] {
            0 => 0b10,
            184 => 0b01,
            _ => 0b11,
        };
        set_bits(packet, 26, 2, control);
        if control != 0b01 {
            packet[4] = (183 - sizes[place]) as u8;
            packet[5..188 - sizes[place]].fill(255);
            if packet[4] > 0 {
                packet[5] = random.pick(&[0, 0, 0x40, 0x20, 0x60]);
            }
        }
    }
    for (&place, laid) in carrying.iter().zip(&contents) {
        let packet = &mut packets[place];
        if laid.start {
            packet[1] |= 0x40;
        }
        packet[188 - laid.bytes.len()..].copy_from_slice(&laid.bytes);
    }
}

/// The payload of a PES stream, beginning a PES packet or not.
fn pes_payload(random: &mut Random, size: usize) -> tables::Laid {
    let fill = random.pick(&[None, None, None, Some(255), Some(0)]);
    let mut bytes: Vec<u8> = (0..size).map(|_| fill.unwrap_or(random.byte())).collect();
    let start = size >= 9 && random.percent(40);
    if start {
        let mut stamps = random.pick(&[0, 1, 2]);
        while 9 + 5 * stamps > size {
            stamps -= 1;
        }
        bytes[..3].copy_from_slice(&[0, 0, 1]);
        bytes[3] = match random.below(4) {
            0 => 0xBD,
            1 => random.pick(&[0xC0, 0xDF, 0xE0, 0xEF]),
            _ => 0xC0 + random.below(0x30) as u8,
        };
        bytes[6] = 0x80 | bytes[6] & 0x3F;
        bytes[7] = [0x00, 0x80, 0xC0][stamps] | bytes[7] & 0x1F;
        bytes[8] = match random.below(4) {
            0 => random.within(5 * stamps as u64, 255) as u8,
            1 => (5 * stamps as u64 + random.below(8)) as u8,
            _ => 5 * stamps as u8,
        };
        let prefixes: &[u8] = [&[][..], &[0x2], &[0x3, 0x1]][stamps];
        for (i, prefix) in prefixes.iter().enumerate() {
            let place = 9 + 5 * i;
            bytes[place..place + 5].copy_from_slice(&[prefix << 4 | 1, 0, 1, 0, 1]);
            let value = match random.below(3) {
                0 => (1 << 33) - 1 - random.below(3000),
                1 => random.below(10),
                _ => random.below(1 << 33),
            };
            set_stamp(&mut bytes, 8 * place, u128::from(value));
        }
    }
    tables::Laid { start, bytes }
}

/// Lowest and highest number of ticks that the clock may advance over so many places.
pub fn tick_range(places: u64, rate: u64) -> (i128, i128) {
    let bytes = 188 * places as i128;
    let rate = rate as i128;
    let low = ((bytes - 1) * 2_700_000_000_000 - rate * 2_700_000 + rate * 100_003 - 1)
        .div_euclid(rate * 100_003);
    let high = ((bytes + 1) * 2_700_000_000_000 + rate * 2_700_000).div_euclid(rate * 99_997);
    (low, high)
}

/// Writes the clock values of one PID, in step with the rate.
fn clock_values(
    random: &mut Random,
    own: &[usize],
    slots: &[Slot],
    packets: &mut [Packet],
    count: usize,
    rate: u64,
) {
    let places: Vec<usize> = own
        .iter()
        .copied()
        .filter(|&p| matches!(slots[p], Slot::Own { clock: true, .. }))
        .collect();
    let Some(&first) = places.first() else {
        return;
    };
    let whole = CLOCK_VALUES as i128;
    // The first value; often such that the clock wraps within the reel or at its seam.
    let mut value = match random.below(10) {
        0..=3 => {
            let wrap = random.within(first as u64, count as u64);
            let ahead = ticks(wrap - first as u64, rate);
            whole - i128::from(ahead) - i128::from(random.below(3))
        }
        4 => i128::from(random.pick(&[0u64, 1, 299, 300])),
        5 => whole - 1 - i128::from(random.below(301)),
        _ => i128::from(random.below(CLOCK_VALUES as u64)),
    };
    let start = value;
    let manner = random.below(10);
    let mut before = first;
    for (i, &place) in places.iter().enumerate() {
        let gap = (place - before) as u64;
        if gap > 0 {
            let (low, high) = tick_range(gap, rate);
            value = match manner {
                // Now as slow and now as fast as may be.
                0 => value + if i % 2 == 1 { low } else { high },
                1 => value + random.pick(&[low, high]),
                2 => {
                    start
                        + i128::from(ticks((place - first) as u64, rate))
                        + i128::from(random.below(21))
                        - 10
                }
                _ => start + i128::from(ticks((place - first) as u64, rate)),
            };
        }
        before = place;
        let packet = &mut packets[place];
        packet[5] |= 0x10;
        if random.percent(30) {
            set_bits(packet, 81, 6, u128::from(random.below(64))); // reserved, free
        }
        set_clock(packet, value.rem_euclid(whole) as u128);
    }
}

/// Writes the value of the PCR field.
pub fn set_clock(packet: &mut Packet, value: u128) {
    set_bits(packet, 48, 33, value / 300);
    set_bits(packet, 87, 9, value % 300);
}
