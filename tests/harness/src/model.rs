//! The format and its rules, told a second time in the plainest way.
//!
//! Nothing here is written for speed: fields are read bit by bit, a packet's predecessor is found
//! by looking back through the run, sections are gathered byte by byte, and all arithmetic is
//! exact in 128 bits. Only what the verified code is compared with may stand here.

pub mod check;
pub mod clock;
pub mod file;
pub mod packet;
pub mod restamp;
pub mod sections;
pub mod stamps;

/// One transport packet.
pub type Packet = [u8; 188];

/// The number of values of the 27 MHz clock.
pub const CLOCK_VALUES: u128 = 300 << 33;

/// The PID of null packets.
pub const NULL_PID: u16 = 8191;

/// A PES stream.
pub const KIND_PES: u8 = 0;
/// A PID that carries sections.
pub const KIND_SECTIONS: u8 = 1;
/// A PES stream that also carries the clock.
pub const KIND_CLOCK: u8 = 2;

/// A line of the sheet: a PID and what it carries.
#[derive(Clone, Copy, Debug, PartialEq, Eq)]
pub struct Entry {
    pub pid: u16,
    pub kind: u8,
}

/// What is agreed about a reel: its PIDs, the byte rate, and the round length in clock ticks.
#[derive(Clone, Debug, PartialEq, Eq)]
pub struct Sheet {
    pub entries: Vec<Entry>,
    pub rate: u32,
    pub round_length: u64,
}

impl Sheet {
    /// The kind of a listed PID.
    pub fn kind(&self, pid: u16) -> Option<u8> {
        self.entries.iter().find(|e| e.pid == pid).map(|e| e.kind)
    }
}

/// The number in `count` bits from bit `from` on, most significant bit first.
pub fn bits(bytes: &[u8], from: usize, count: usize) -> u128 {
    let mut value = 0;
    for i in from..from + count {
        let bit = bytes[i / 8] >> (7 - i % 8) & 1;
        value = value * 2 + u128::from(bit);
    }
    value
}

/// Writes a number into `count` bits from bit `from` on; the other bits stay.
pub fn set_bits(bytes: &mut [u8], from: usize, count: usize, value: u128) {
    for i in 0..count {
        let place = from + i;
        let bit = (value >> (count - 1 - i) & 1) as u8;
        let mask = 1 << (7 - place % 8);
        if bit == 1 {
            bytes[place / 8] |= mask;
        } else {
            bytes[place / 8] &= !mask;
        }
    }
}
