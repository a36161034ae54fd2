//! A little programme: tables, pictures, sound and clock, of any length. It is the sample reel and
//! what the check is timed on.
//!
//! It runs at 376,000 bytes (2,000 packets) a second, so that a packet takes 13,500 ticks. A
//! picture begins every 80 packets (40 ms, 25 a second), a sound frame every 48 (24 ms), the
//! clock is told about every 40 (20 ms), and the tables come every 120 (60 ms). Over 240 packets
//! all of these come out even.

use crate::generator::reel::set_clock;
use crate::generator::tables::close;
use crate::generator::Draft;
use crate::model::stamps::set_stamp;
use crate::model::{Entry, Packet, Sheet, KIND_CLOCK, KIND_PES, KIND_SECTIONS};

const RATE: u32 = 376_000;
const PACKET_TICKS: u64 = 13_500;

const PAT_PID: u16 = 0x0000;
const PMT_PID: u16 = 0x0100;
pub const PICTURE_PID: u16 = 0x0101;
const SOUND_PID: u16 = 0x0102;

/// The sample reel's packets: 120 ms, three pictures, five sound frames.
pub const SAMPLE_PACKETS: usize = 240;

/// What the clock shows at the first packet: two seconds.
const FIRST_TICK: u64 = 54_000_000;
/// The first picture is decoded 100 ms after its first packet, and shown a picture later.
const DECODING_DELAY: u64 = 9_000;
const PICTURE_TIME: u64 = 3_600;
const SOUND_TIME: u64 = 2_160;

/// The programme in `count` packets.
pub fn programme(count: usize) -> Draft {
    let entries = [
        (PAT_PID, KIND_SECTIONS),
        (PMT_PID, KIND_SECTIONS),
        (PICTURE_PID, KIND_CLOCK),
        (SOUND_PID, KIND_PES),
    ];
    let pat = table(&pat());
    let pmt = table(&pmt());
    let mut counters = [0u8; 4];
    let mut pictures = Pictures {
        number: 0,
        clock_due: 0,
        byte: 0,
    };
    let mut sound_part = 0;

    let mut packets = Vec::with_capacity(count);
    for place in 0..count {
        let (row, mut packet) = match place {
            _ if place % 120 == 0 => (0, pat),
            _ if place % 120 == 1 => (1, pmt),
            _ if place % 12 == 5 => {
                sound_part += 1;
                (3, sound(sound_part - 1))
            }
            _ if place % 24 == 11 => {
                packets.push(null());
                continue;
            }
            _ => (2, pictures.next(place)),
        };
        packet[0] = 0x47;
        packet[1] |= (entries[row].0 >> 8) as u8;
        packet[2] = entries[row].0 as u8;
        packet[3] |= counters[row];
        counters[row] = (counters[row] + 1) % 16;
        packets.push(packet);
    }
    Draft {
        packets,
        sheet: Sheet {
            entries: entries.map(|(pid, kind)| Entry { pid, kind }).to_vec(),
            rate: RATE,
            round_length: PACKET_TICKS * count as u64,
        },
    }
}

fn null() -> Packet {
    let mut packet = [255; 188];
    packet[..4].copy_from_slice(&[0x47, 0x1F, 0xFF, 0x10]);
    packet
}

/// A section, its CRC added, alone in a packet.
fn table(section: &[u8]) -> Packet {
    let mut whole = section.to_vec();
    whole.extend([0; 4]);
    close(&mut whole);
    let mut packet = [255; 188];
    packet[1] = 0x40;
    packet[3] = 0x10;
    packet[4] = 0; // the pointer
    packet[5..5 + whole.len()].copy_from_slice(&whole);
    packet
}

/// One programme, number 1, told of on the PMT's PID.
fn pat() -> [u8; 12] {
    [
        0x00, 0xB0, 13, // table_id, section_length
        0x00, 0x01, 0xC1, 0, 0, // transport_stream_id, version 0, current, the only section
        0x00, 0x01, 0xE1, 0x00, // programme 1: PID 0x100
    ]
}

/// The programme's streams.
fn pmt() -> [u8; 22] {
    [
        0x02, 0xB0, 23, // table_id, section_length
        0x00, 0x01, 0xC1, 0, 0, // programme 1, version 0, current, the only section
        0xE1, 0x01, 0xF0, 0, // the clock is on PID 0x101, no descriptors
        0x02, 0xE1, 0x01, 0xF0, 0, // MPEG-2 video on PID 0x101
        0x03, 0xE1, 0x02, 0xF0, 0, // MPEG audio on PID 0x102
    ]
}

/// A time stamp with its prefix and marker bits.
fn stamp(prefix: u8, value: u64) -> [u8; 5] {
    let mut bytes = [prefix << 4 | 1, 0, 1, 0, 1];
    set_stamp(&mut bytes, 0, u128::from(value % (1 << 33)));
    bytes
}

/// The picture stream.
struct Pictures {
    number: u64,
    /// The next clock value is due at this place.
    clock_due: usize,
    byte: u32,
}

impl Pictures {
    fn next(&mut self, place: usize) -> Packet {
        let mut packet = [0; 188];
        packet[3] = 0x10;
        let mut from = 4;
        if place >= self.clock_due {
            self.clock_due = place / 40 * 40 + 40;
            packet[3] = 0x30;
            packet[4] = 7;
            packet[5] = 0x10;
            packet[6..12].copy_from_slice(&[0, 0, 0, 0, 0x7E, 0]);
            set_clock(
                &mut packet,
                u128::from(FIRST_TICK + PACKET_TICKS * place as u64),
            );
            from = 12;
        }
        if place as u64 >= 80 * self.number {
            let decoded = FIRST_TICK / 300 + DECODING_DELAY + PICTURE_TIME * self.number;
            packet[1] = 0x40;
            let mut head = vec![0, 0, 1, 0xE0, 0, 0, 0x84, 0xC0, 10];
            head.extend(stamp(3, decoded + PICTURE_TIME));
            head.extend(stamp(1, decoded));
            // A picture header: start code, temporal reference, picture type I.
            let reference = (self.number % 1024) as u16;
            head.extend([0, 0, 1, 0]);
            head.extend([
                (reference >> 2) as u8,
                (reference << 6) as u8 | 0x0F,
                0xFF,
                0xF8,
            ]);
            // The first slice.
            head.extend([0, 0, 1, 1]);
            packet[from..from + head.len()].copy_from_slice(&head);
            from += head.len();
            self.number += 1;
        }
        for byte in &mut packet[from..] {
            // Picture-like bytes: no start code among them.
            self.byte = self
                .byte
                .wrapping_mul(1_664_525)
                .wrapping_add(1_013_904_223);
            *byte = (self.byte >> 24) as u8 | 4;
        }
        packet
    }
}

/// A packet of the sound stream: each frame of 576 bytes takes four.
fn sound(part: u64) -> Packet {
    const FRAME: usize = 576;
    let frame = part / 4;
    let time = FIRST_TICK / 300 + DECODING_DELAY + PICTURE_TIME + SOUND_TIME * frame;
    let length = 8 + FRAME;
    let mut pes = vec![
        0,
        0,
        1,
        0xC0,
        (length >> 8) as u8,
        length as u8,
        0x84,
        0x80,
        5,
    ];
    pes.extend(stamp(2, time));
    // MPEG-1 layer II, 192 kbit/s, 48 kHz, stereo.
    pes.extend([0xFF, 0xFD, 0xA4, 0x00]);
    pes.extend((4..FRAME).map(|i| (i * 29 % 251) as u8 & 0x7F));

    let mut packet = [255; 188];
    let from = 184 * (part % 4) as usize;
    let bytes = &pes[from..pes.len().min(from + 184)];
    packet[1] = if from == 0 { 0x40 } else { 0 };
    packet[3] = 0x10;
    if bytes.len() < 184 {
        packet[3] = 0x30;
        packet[4] = (183 - bytes.len()) as u8;
        packet[5] = 0;
    }
    packet[188 - bytes.len()..].copy_from_slice(bytes);
    packet
}
