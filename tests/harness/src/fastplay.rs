//! The player as one would write it in plain Rust for speed, timed beside the verified one. It is
//! compared with the plain implementation of `model` so that what is timed is also right.

use crate::fast;
use crate::model::{file, restamp, Packet, Sheet};
use std::io::{BufWriter, Write};

const CLOCK_VALUES: u64 = 300 << 33;
const MOST_ROUNDS: u32 = 1_000_000;
const NO_ROW: u8 = 255;

/// Plays a reel in memory, once its check has approved it.
pub struct Player<'a> {
    reel: &'a [Packet],
    round_length: u64,
    row_of: Box<[u8; 8192]>,
    /// Kind and tally of each entry, once approved.
    rows: Option<Vec<(u8, u8)>>,
    begun: u32,
    ended: u32,
    given_up: bool,
    place: usize,
    shift: u64,
}

impl<'a> Player<'a> {
    pub fn new(reel: &'a [Packet], sheet: &Sheet) -> Self {
        let mut row_of = Box::new([NO_ROW; 8192]);
        for (i, entry) in sheet.entries.iter().enumerate() {
            row_of[entry.pid as usize] = i as u8;
        }
        Player {
            reel,
            round_length: sheet.round_length,
            row_of,
            rows: fast::rows(reel, sheet),
            begun: 0,
            ended: 0,
            given_up: false,
            place: 0,
            shift: 0,
        }
    }

    fn is_open(&self) -> bool {
        !self.given_up && self.ended < self.begun
    }

    pub fn begin(&mut self) -> Result<(), u32> {
        if self.given_up {
            return Err(10);
        }
        if self.rows.is_none() {
            return Err(11);
        }
        if self.is_open() {
            return Err(12);
        }
        if self.begun == MOST_ROUNDS {
            return Err(17);
        }
        if self.begun > 0 {
            self.shift = (self.shift + self.round_length) % CLOCK_VALUES;
        }
        self.begun += 1;
        self.place = 0;
        Ok(())
    }

    pub fn send(&mut self, buffer: &mut [u8]) -> Result<(), u32> {
        let buffer: &mut Packet = buffer.try_into().map_err(|_| 7u32)?;
        if self.given_up {
            return Err(10);
        }
        let Some(rows) = &self.rows else {
            return Err(11);
        };
        if !self.is_open() {
            return Err(13);
        }
        let Some(packet) = self.reel.get(self.place) else {
            return Err(15);
        };
        *buffer = *packet;
        let pid = usize::from(packet[1] & 0x1F) << 8 | usize::from(packet[2]);
        if let Some((kind, tally)) = rows.get(self.row_of[pid] as usize) {
            let steps = (self.begun - 1).wrapping_mul(u32::from(*tally)) as u8 & 15;
            fast::restamp(buffer, *kind, steps, self.shift);
        }
        self.place += 1;
        Ok(())
    }

    pub fn end(&mut self) -> Result<(), u32> {
        if !self.is_open() {
            return Err(13);
        }
        if self.place < self.reel.len() {
            return Err(16);
        }
        self.ended += 1;
        Ok(())
    }
}

/// Plays rounds of a file to standard output.
pub fn run(path: &str, rounds: u32) -> bool {
    let Ok(bytes) = std::fs::read(path) else {
        eprintln!("{path} cannot be read");
        return false;
    };
    let Ok(reel) = file::read(&bytes) else {
        eprintln!("{path} is refused");
        return false;
    };
    drop(bytes);
    let mut player = Player::new(&reel.packets, &reel.sheet);
    let mut out = BufWriter::new(std::io::stdout().lock());
    match play(&mut player, reel.packets.len(), rounds, &mut out) {
        Ok(()) => true,
        Err(refusal) => {
            eprintln!("stopped by {refusal}");
            false
        }
    }
}

fn play(
    player: &mut Player,
    count: usize,
    rounds: u32,
    out: &mut impl Write,
) -> Result<(), u32> {
    let mut packet = [0; 188];
    for _ in 0..rounds {
        player.begin()?;
        for _ in 0..count {
            player.send(&mut packet)?;
            out.write_all(&packet).map_err(|_| 0u32)?;
        }
        out.flush().map_err(|_| 0u32)?;
        player.end()?;
    }
    Ok(())
}

/// Whether what this player sends of a reel is what the plain implementation moves on.
pub fn agrees(reel: &[Packet], sheet: &Sheet, rounds: u32) -> bool {
    let mut player = Player::new(reel, sheet);
    let mut sent = Vec::new();
    if play(&mut player, reel.len(), rounds, &mut sent).is_err() {
        return false;
    }
    sent == restamp::run(reel, sheet, rounds as usize).concat()
}
