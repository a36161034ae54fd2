//! The check as one would write it in plain Rust for speed: one pass over each round, a table for
//! the CRC, words of 64 bits. It is timed beside the verified check, and compared with the plain
//! implementation of `model` so that what is timed is also right.
//!
//! Two ways of coming by the packets are timed:
//! - lean: the packets lie in memory and are judged there, restamped in the head only;
//! - fetched: each packet is copied into a buffer and restamped in it, and the last packet of a
//!   PID is kept by copy, as code must that knows a reel only by "copy me packet i".

use crate::model::check::Breach;
use crate::model::{file, Packet, Sheet};
use std::io::Write;

const CLOCK_VALUES: u64 = 300 << 33;
const NO_ROW: u8 = 255;

/// The check of packets in memory, judged where they lie.
pub fn lean(reel: &[Packet], sheet: &Sheet) -> Option<Breach> {
    Judge::<true>::new(reel, sheet).check()
}

/// The same over copies.
pub fn fetched(reel: &[Packet], sheet: &Sheet) -> Option<Breach> {
    Judge::<false>::new(reel, sheet).check()
}

/// The report on a file in a buffer of at least 64 bytes; answers how many bytes it wrote.
pub fn report(bytes: &[u8], out: &mut [u8]) -> usize {
    let room = out.len();
    let mut rest = out;
    let written = if bytes.len() > file::LONGEST_FILE {
        writeln!(rest, "REFUSED 9")
    } else {
        match file::parts(bytes) {
            Err(number) => writeln!(rest, "REFUSED {number}"),
            Ok((packets, sheet)) => {
                let entries = sheet.entries.len();
                writeln!(rest, "REEL {} {entries}", packets.len()).and_then(|()| {
                    match fetched(packets, &sheet) {
                        None => writeln!(rest, "APPROVED"),
                        Some(b) => writeln!(rest, "BREACH {} {} {}", b.round, b.packet, b.rule),
                    }
                })
            }
        }
    };
    match written {
        Ok(()) => room - rest.len(),
        Err(_) => 7,
    }
}

/// Kind and tally of each entry of an approved reel.
pub fn rows(reel: &[Packet], sheet: &Sheet) -> Option<Vec<(u8, u8)>> {
    let mut judge = Judge::<false>::new(reel, sheet);
    match judge.check() {
        None => Some(judge.rows.iter().map(|r| (r.kind, r.tally)).collect()),
        Some(_) => None,
    }
}

/// What is remembered of a PID.
struct Row {
    kind: u8,
    /// Whether there was a packet; the fields below are of the last one.
    seen: bool,
    last_index: usize,
    last_round: u32,
    last_bytes: Packet,
    last_counter: u8,
    last_payload: bool,
    last_copy: bool,
    tally: u8,
    /// Place and value.
    clock: Option<(u64, u64)>,
    section: Section,
}

/// How far the sections of a PID are read.
#[derive(Clone, Copy)]
struct Section {
    started: bool,
    open: bool,
    got: u32,
    size: u32,
    crc: u32,
}

const NO_SECTION: Section = Section {
    started: false,
    open: false,
    got: 0,
    size: 0,
    crc: 0,
};

struct Judge<'a, const LEAN: bool> {
    reel: &'a [Packet],
    rate: i64,
    round_length: u64,
    rows: Vec<Row>,
    row_of: Box<[u8; 8192]>,
}

impl<'a, const LEAN: bool> Judge<'a, LEAN> {
    fn new(reel: &'a [Packet], sheet: &Sheet) -> Self {
        let mut row_of = Box::new([NO_ROW; 8192]);
        let mut rows = Vec::with_capacity(sheet.entries.len());
        for (i, entry) in sheet.entries.iter().enumerate() {
            row_of[entry.pid as usize] = i as u8;
            rows.push(Row {
                kind: entry.kind,
                seen: false,
                last_index: 0,
                last_round: 0,
                last_bytes: [0; 188],
                last_counter: 0,
                last_payload: false,
                last_copy: false,
                tally: 0,
                clock: None,
                section: NO_SECTION,
            });
        }
        Judge {
            reel,
            rate: i64::from(sheet.rate),
            round_length: sheet.round_length,
            rows,
            row_of,
        }
    }

    fn check(&mut self) -> Option<Breach> {
        let reel = self.reel;
        let breach = |round, packet, rule| {
            Some(Breach {
                round,
                packet,
                rule,
            })
        };
        for (i, packet) in reel.iter().enumerate() {
            let judged = if LEAN {
                self.packet::<0>(packet, i)
            } else {
                let buffer = *packet;
                self.packet::<0>(&buffer, i)
            };
            if let Err(rule) = judged {
                return breach(0, i, rule);
            }
        }
        if self.rows.iter().any(|r| r.kind == 2 && r.clock.is_none()) {
            return breach(0, reel.len(), 31);
        }
        for (i, packet) in reel.iter().enumerate() {
            let judged = if LEAN {
                self.packet::<1>(packet, i)
            } else {
                let mut buffer = *packet;
                self.restamp(&mut buffer);
                self.packet::<1>(&buffer, i)
            };
            if let Err(rule) = judged {
                return breach(1, i, rule);
            }
        }
        None
    }

    /// Judges the packet with this index in the reel. In round 1 a lean judge is given the packet
    /// of round 0 and moves what it reads of it.
    fn packet<const ROUND: u32>(&mut self, packet: &Packet, index: usize) -> Result<(), u32> {
        let head = u32::from_be_bytes([packet[0], packet[1], packet[2], packet[3]]);
        if head >> 24 != 0x47 {
            return Err(20);
        }
        if head & 0x0080_00C0 != 0 {
            return Err(21);
        }
        let pid = (head >> 8 & 0x1FFF) as usize;
        let start = head & 0x0040_0000 != 0;
        let control = head >> 4 & 3;
        if pid == 8191 {
            return if start || control != 1 {
                Err(21)
            } else {
                Ok(())
            };
        }
        let Some(row) = self.rows.get_mut(self.row_of[pid] as usize) else {
            return Err(22);
        };

        // Adaptation field.
        let mut from = 4;
        let mut clock = None;
        if control != 1 {
            let length = packet[4] as usize;
            let fits = match control {
                2 => !start && length == 183,
                3 => length <= 182,
                _ => false,
            };
            if !fits {
                return Err(23);
            }
            from = 5 + length;
            if length > 0 {
                let flags = packet[5];
                let carries = flags & 0x10 != 0;
                let stuffing = if carries { 12 } else { 6 };
                if flags & 0x8F != 0 || from < stuffing {
                    return Err(23);
                }
                if packet[stuffing..from].iter().fold(255, |all, &b| all & b) != 255 {
                    return Err(23);
                }
                if carries {
                    let field = read48(packet);
                    let extension = field & 0x1FF;
                    if row.kind != 2 || extension > 299 {
                        return Err(24);
                    }
                    clock = Some((field >> 15) * 300 + extension);
                }
            }
        }
        let payload = &packet[from..];

        // Continuity.
        let moved = LEAN && ROUND == 1;
        let mut counter = (head & 15) as u8;
        if moved {
            counter = (counter + row.tally) & 15;
        }
        let mut copy = false;
        if row.seen {
            let step = u8::from(!payload.is_empty());
            if counter != (row.last_counter + step) & 15 {
                copy = !payload.is_empty() && row.last_payload && !row.last_copy && {
                    if !LEAN {
                        row.last_bytes == *packet
                    } else if row.last_round == ROUND {
                        self.reel[row.last_index] == *packet
                    } else {
                        // Over the seam only what is restamped can be compared.
                        let mut now = *packet;
                        restamp(&mut now, row.kind, row.tally, self.round_length);
                        self.reel[row.last_index] == now
                    }
                };
                if !copy {
                    return Err(25);
                }
            }
        }
        row.seen = true;
        row.last_counter = counter;
        row.last_payload = !payload.is_empty();
        row.last_copy = copy;
        if LEAN {
            row.last_index = index;
            row.last_round = ROUND;
        } else {
            row.last_bytes = *packet;
        }
        if copy {
            return Ok(());
        }
        if ROUND == 0 && !payload.is_empty() {
            row.tally = (row.tally + 1) & 15;
        }

        // Watches.
        if row.kind == 1 {
            return if payload.is_empty() {
                Ok(())
            } else {
                row.section.payload(payload, start)
            };
        }
        if let Some(mut value) = clock {
            if moved {
                value = later(value, self.round_length);
            }
            let place = u64::from(ROUND) * self.reel.len() as u64 + index as u64;
            if let Some((earlier_place, earlier)) = row.clock.replace((place, value)) {
                clock_step(place - earlier_place, earlier, value, self.rate)?;
            }
        }
        if start && stamps(payload).is_none() {
            return Err(30);
        }
        Ok(())
    }

    /// Moves a packet of the reel, which round 0 found sound, to round 1.
    fn restamp(&self, packet: &mut Packet) {
        let pid = usize::from(packet[1] & 0x1F) << 8 | usize::from(packet[2]);
        if let Some(row) = self.rows.get(self.row_of[pid] as usize) {
            restamp(packet, row.kind, row.tally, self.round_length);
        }
    }
}

/// The six bytes of the PCR field.
fn read48(packet: &Packet) -> u64 {
    u64::from_be_bytes([
        0, 0, packet[6], packet[7], packet[8], packet[9], packet[10], packet[11],
    ])
}

/// A clock value moved by less than a turn.
fn later(value: u64, ticks: u64) -> u64 {
    let sum = value + ticks;
    if sum >= CLOCK_VALUES {
        sum - CLOCK_VALUES
    } else {
        sum
    }
}

fn clock_step(places: u64, earlier: u64, value: u64, rate: i64) -> Result<(), u32> {
    let ticks = if value >= earlier {
        value - earlier
    } else {
        value + CLOCK_VALUES - earlier
    };
    if ticks > 2_700_000 || !(1..=10_000).contains(&places) {
        return Err(26);
    }
    // All products stay below 2^63 now.
    let ticks = ticks as i64;
    let bytes = 188 * places as i64;
    let low = (bytes - 1) * 2_700_000_000_000 <= rate * (100_003 * ticks + 2_700_000);
    let high = rate * 99_997 * ticks <= (bytes + 1) * 2_700_000_000_000 + rate * 2_700_000;
    if low && high {
        Ok(())
    } else {
        Err(27)
    }
}

/// How many stamps the beginning of a PES packet holds, if it is in order.
fn stamps(payload: &[u8]) -> Option<usize> {
    let [0, 0, 1, id, _, _, six, seven, eight, rest @ ..] = payload else {
        return None;
    };
    if (*id != 0xBD && !(0xC0..=0xEF).contains(id)) || six & 0xC0 != 0x80 || seven & 0x20 != 0 {
        return None;
    }
    let stamp = |at: usize, prefix: u8| {
        rest[at] & 0xF1 == prefix << 4 | 1 && rest[at + 2] & 1 == 1 && rest[at + 4] & 1 == 1
    };
    match seven >> 6 {
        0 => Some(0),
        2 if *eight >= 5 && rest.len() >= 5 && stamp(0, 2) => Some(1),
        3 if *eight >= 10 && rest.len() >= 10 && stamp(0, 3) && stamp(5, 1) => Some(2),
        _ => None,
    }
}

/// Moves a sound packet of a listed PID by one round.
pub fn restamp(packet: &mut Packet, kind: u8, tally: u8, ticks: u64) {
    packet[3] = packet[3] & 0xF0 | (packet[3] + tally) & 15;
    if kind == 1 {
        return;
    }
    let mut from = 4;
    if packet[3] & 0x20 != 0 {
        from = 5 + packet[4] as usize;
        if packet[4] > 0 && packet[5] & 0x10 != 0 {
            let field = read48(packet);
            let value = later((field >> 15) * 300 + (field & 0x1FF), ticks);
            let field = ((value / 300) << 15) | (field & 0x7E00) | (value % 300);
            packet[6..12].copy_from_slice(&field.to_be_bytes()[2..]);
        }
    }
    if packet[1] & 0x40 != 0 {
        let count = stamps(&packet[from..]).unwrap_or(0);
        for i in 0..count {
            let stamp: &mut [u8] = &mut packet[from + 9 + 5 * i..][..5];
            let [a, b, c, d, e] = [0, 1, 2, 3, 4].map(|k| u64::from(stamp[k]));
            let value = (a >> 1 & 7) << 30 | b << 22 | (c >> 1) << 15 | d << 7 | e >> 1;
            let value = (value + ticks / 300) & 0x1_FFFF_FFFF;
            stamp[0] = stamp[0] & 0xF1 | (value >> 29) as u8 & 0x0E;
            stamp[1] = (value >> 22) as u8;
            stamp[2] = (value >> 14) as u8 & 0xFE | 1;
            stamp[3] = (value >> 7) as u8;
            stamp[4] = (value << 1) as u8 | 1;
        }
    }
}

impl Section {
    fn payload(&mut self, payload: &[u8], start: bool) -> Result<(), u32> {
        if !start {
            if !self.started {
                return Ok(());
            }
            if !self.open {
                return Err(28);
            }
            let taken = self.take(payload)?;
            return stuffing(&payload[taken..]);
        }
        let pointer = payload[0] as usize;
        if 1 + pointer >= payload.len() {
            return Err(28);
        }
        let (before, mut after) = payload[1..].split_at(pointer);
        if self.started {
            // The pointer's bytes end the open section exactly.
            let taken = if self.open { self.take(before)? } else { 0 };
            if taken < pointer || self.open {
                return Err(28);
            }
        }
        self.started = true;
        loop {
            self.open = true;
            self.got = 0;
            self.crc = !0;
            let taken = self.take(after)?;
            after = &after[taken..];
            match after.first() {
                None => return Ok(()),
                Some(255) => return stuffing(after),
                Some(_) => {}
            }
        }
    }

    /// Takes bytes of the open section up to its end, and says how many.
    fn take(&mut self, bytes: &[u8]) -> Result<usize, u32> {
        let mut taken = 0;
        while self.got < 3 {
            let Some(&byte) = bytes.get(taken) else {
                return Ok(taken);
            };
            match self.got {
                0 if byte == 255 => return Err(28),
                1 if byte < 128 => return Err(28),
                1 => self.size = u32::from(byte & 15) << 8,
                2 => {
                    self.size |= u32::from(byte);
                    if !(9..=1021).contains(&self.size) {
                        return Err(28);
                    }
                    self.size += 3;
                }
                _ => {}
            }
            self.crc = crc(self.crc, &[byte]);
            self.got += 1;
            taken += 1;
        }
        let left = (self.size - self.got) as usize;
        let part = &bytes[taken..bytes.len().min(taken + left)];
        self.crc = crc(self.crc, part);
        self.got += part.len() as u32;
        if self.got == self.size {
            if self.crc != 0 {
                return Err(29);
            }
            self.open = false;
        }
        Ok(taken + part.len())
    }
}

fn stuffing(bytes: &[u8]) -> Result<(), u32> {
    if bytes.iter().fold(255, |all, &b| all & b) == 255 {
        Ok(())
    } else {
        Err(28)
    }
}

static CRC_TABLE: [u32; 256] = crc_table();

const fn crc_table() -> [u32; 256] {
    let mut table = [0; 256];
    let mut i = 0;
    while i < 256 {
        let mut register = (i as u32) << 24;
        let mut bit = 0;
        while bit < 8 {
            let high = register >> 31 == 1;
            register <<= 1;
            if high {
                register ^= 0x04C1_1DB7;
            }
            bit += 1;
        }
        table[i] = register;
        i += 1;
    }
    table
}

fn crc(register: u32, bytes: &[u8]) -> u32 {
    bytes.iter().fold(register, |r, &byte| {
        r << 8 ^ CRC_TABLE[(r >> 24) as usize ^ byte as usize]
    })
}
