//! A reel file: packets, then four bytes for each sheet entry, then a trailer of 24 bytes.

use super::check::{first_breach, Breach};
use super::{bits, Entry, Packet, Sheet, CLOCK_VALUES};

/// The four bytes that close a reel file.
pub const MARK: [u8; 4] = [0x52, 0x45, 0x45, 0x4C];

/// The longest file that the report takes.
pub const LONGEST_FILE: usize = 65_536;

/// The shortest buffer that the report takes.
pub const SHORTEST_BUFFER: usize = 64;

/// A file that was read.
#[derive(Clone, Debug)]
pub struct ReelFile {
    pub packets: Vec<Packet>,
    pub sheet: Sheet,
}

/// Reads a reel file, or says by which number it is refused: the smallest that applies.
pub fn read(file: &[u8]) -> Result<ReelFile, u32> {
    let (packets, sheet) = parts(file)?;
    Ok(ReelFile {
        packets: packets.to_vec(),
        sheet,
    })
}

/// The same, with the packets where they lie in the file.
pub fn parts(file: &[u8]) -> Result<(&[Packet], Sheet), u32> {
    // 1: too short for a trailer, or the closing mark is wrong.
    if file.len() < 24 || file[file.len() - 4..] != MARK {
        return Err(1);
    }
    let trailer = &file[file.len() - 24..];
    let rate = bits(trailer, 0, 32);
    let round_length = bits(trailer, 32, 64);
    let count = bits(trailer, 96, 32);
    let distance = bits(trailer, 128, 32) as usize;

    // 2: the distance back is that of 0 to 16 entries and lies within the file.
    let entry_count = match (0..=16).find(|l| distance == 24 + 4 * l) {
        Some(l) if distance <= file.len() => l,
        _ => return Err(2),
    };

    // 3: what is before the entries is exactly the packets told.
    let packet_bytes = &file[..file.len() - distance];
    if packet_bytes.len() as u128 != 188 * count || count == 0 || count > 1_000_000_000 {
        return Err(3);
    }

    // 4: every entry is in order and no PID stands twice.
    let mut entries: Vec<Entry> = Vec::new();
    for i in 0..entry_count {
        let entry = &file[file.len() - distance + 4 * i..][..4];
        let pid = bits(entry, 0, 16) as u16;
        let kind = entry[2];
        let repeated = entries.iter().any(|e| e.pid == pid);
        if pid > 8190 || kind > 2 || entry[3] != 0 || repeated {
            return Err(4);
        }
        entries.push(Entry { pid, kind });
    }

    // 5: the byte rate and the round length are in their ranges.
    let rate_right = (1..=10_000_000).contains(&rate);
    let length_right = round_length % 300 == 0 && round_length <= CLOCK_VALUES - 300;
    if !rate_right || !length_right {
        return Err(5);
    }

    let (packets, _) = packet_bytes.as_chunks();
    let sheet = Sheet {
        entries,
        rate: rate as u32,
        round_length: round_length as u64,
    };
    Ok((packets, sheet))
}

/// What the report says about a file.
#[derive(Clone, Copy, Debug, PartialEq, Eq)]
pub enum Verdict {
    Refused(u32),
    Approved {
        packets: usize,
        entries: usize,
    },
    Broken {
        packets: usize,
        entries: usize,
        breach: Breach,
    },
}

/// Judges a file as the report does: its length first, then the reading, then the check.
pub fn judge(file: &[u8]) -> Verdict {
    if file.len() > LONGEST_FILE {
        return Verdict::Refused(9);
    }
    let reel = match read(file) {
        Ok(reel) => reel,
        Err(number) => return Verdict::Refused(number),
    };
    let packets = reel.packets.len();
    let entries = reel.sheet.entries.len();
    match first_breach(&reel.packets, &reel.sheet, 2) {
        None => Verdict::Approved { packets, entries },
        Some(breach) => Verdict::Broken {
            packets,
            entries,
            breach,
        },
    }
}

impl Verdict {
    /// The lines of the report.
    pub fn text(&self) -> String {
        match self {
            Verdict::Refused(number) => format!("REFUSED {number}\n"),
            Verdict::Approved { packets, entries } => {
                format!("REEL {packets} {entries}\nAPPROVED\n")
            }
            Verdict::Broken {
                packets,
                entries,
                breach,
            } => {
                let Breach {
                    round,
                    packet,
                    rule,
                } = breach;
                format!("REEL {packets} {entries}\nBREACH {round} {packet} {rule}\n")
            }
        }
    }
}

/// The report call: writes the lines and answers their length; 7 for a short buffer.
#[cfg_attr(not(feature = "standin"), allow(dead_code))]
pub fn report(file: &[u8], out: &mut [u8]) -> usize {
    if out.len() < SHORTEST_BUFFER {
        return 7;
    }
    let text = judge(file).text();
    out[..text.len()].copy_from_slice(text.as_bytes());
    text.len()
}
