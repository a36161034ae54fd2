//! A seeded generator of reel files: right ones of every shape, and damaged ones.

pub mod damage;
pub mod random;
pub mod reel;
pub mod tables;

use crate::model::file::MARK;
use crate::model::{Packet, Sheet};
use random::Random;

/// A reel with its sheet, before it is written to a file.
#[derive(Clone, Debug)]
pub struct Draft {
    pub packets: Vec<Packet>,
    pub sheet: Sheet,
}

/// The fields of a file, each free to be wrong.
#[derive(Clone, Debug)]
pub struct Parts {
    pub packets: Vec<u8>,
    pub entries: Vec<[u8; 4]>,
    pub rate: u32,
    pub round_length: u64,
    pub count: u32,
    pub distance: u32,
    pub mark: [u8; 4],
}

impl Draft {
    pub fn parts(&self) -> Parts {
        let entry = |e: &crate::model::Entry| {
            let pid = e.pid.to_be_bytes();
            [pid[0], pid[1], e.kind, 0]
        };
        Parts {
            packets: self.packets.concat(),
            entries: self.sheet.entries.iter().map(entry).collect(),
            rate: self.sheet.rate,
            round_length: self.sheet.round_length,
            count: self.packets.len() as u32,
            distance: 24 + 4 * self.sheet.entries.len() as u32,
            mark: MARK,
        }
    }

    pub fn file(&self) -> Vec<u8> {
        self.parts().file()
    }
}

impl Parts {
    /// Entries and trailer.
    pub fn tail(&self) -> Vec<u8> {
        let mut tail = self.entries.concat();
        tail.extend(self.rate.to_be_bytes());
        tail.extend(self.round_length.to_be_bytes());
        tail.extend(self.count.to_be_bytes());
        tail.extend(self.distance.to_be_bytes());
        tail.extend(self.mark);
        tail
    }

    pub fn file(&self) -> Vec<u8> {
        let mut file = self.packets.clone();
        file.extend(self.tail());
        file
    }
}

/// The file with this number under this seed.
pub fn file(seed: u64, index: u64) -> Vec<u8> {
    let random = &mut Random::new(seed, index);
    match random.below(100) {
        0..=36 => reel::reel(random, reel::MOST_PACKETS).file(),
        37..=82 => damaged_reel(random, reel::MOST_PACKETS).file(),
        83..=96 => {
            let most = random.pick(&[4, 20, reel::MOST_PACKETS]);
            let draft = if random.percent(80) {
                reel::reel(random, most)
            } else {
                damaged_reel(random, most)
            };
            damage::file(random, &draft)
        }
        97..=98 => damage::noise(random),
        _ => damage::too_long(random),
    }
}

/// A readable reel of at most `most` packets for the long runs: right, or with damaged packets.
pub fn readable(seed: u64, index: u64, most: usize) -> Draft {
    let random = &mut Random::new(seed, index);
    if random.percent(70) {
        reel::reel(random, most)
    } else {
        damaged_reel(random, most)
    }
}

/// A reel with one to three damages, sometimes all in one packet.
fn damaged_reel(random: &mut Random, most: usize) -> Draft {
    let mut draft = reel::reel(random, most);
    let times = random.pick(&[1, 1, 1, 2, 3]);
    let mut place = random.index(draft.packets.len());
    if random.percent(12) {
        // Much wrong with one header: the order of the rules decides.
        for _ in 0..4 {
            damage::header(random, &mut draft, place);
        }
        return draft;
    }
    for _ in 0..times {
        damage::reel(random, &mut draft, place);
        if random.percent(50) || place >= draft.packets.len() {
            place = random.index(draft.packets.len());
        }
    }
    draft
}
