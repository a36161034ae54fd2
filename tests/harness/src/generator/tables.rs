//! Sections laid into the payloads of one PID.

use super::random::Random;
use crate::model::sections::crc;

/// A payload to be sent, with the start flag of its packet.
pub struct Laid {
    pub start: bool,
    pub bytes: Vec<u8>,
}

/// A whole section of `size` bytes, 12 to 1,024, that obeys the rules.
pub fn section(random: &mut Random, size: usize) -> Vec<u8> {
    let mut bytes = vec![0; size];
    let fill = random.pick(&[None, None, Some(255), Some(0), Some(0x47)]);
    for byte in &mut bytes {
        *byte = fill.unwrap_or(random.byte());
    }
    bytes[0] = match random.below(4) {
        0 => random.pick(&[0, 1, 2, 127, 128, 254]),
        _ => random.below(255) as u8,
    };
    let length = size - 3;
    bytes[1] = 0x80 | (random.below(8) as u8) << 4 | (length >> 8) as u8;
    bytes[2] = length as u8;
    close(&mut bytes);
    bytes
}

/// Writes the CRC_32 into a section's last four bytes.
pub fn close(section: &mut [u8]) {
    let end = section.len() - 4;
    let value = crc(&section[..end]);
    section[end..].copy_from_slice(&value.to_be_bytes());
}

/// Fills payloads of the given sizes with sections so that the reel can be played round after
/// round. A section may be open at the reel's end and go on at its beginning: the payloads are
/// laid from the first start on, around the seam, and back to the first start's pointer bytes.
pub fn lay(random: &mut Random, sizes: &mut [usize]) -> Vec<Laid> {
    let count = sizes.len();
    if count == 0 {
        return Vec::new();
    }
    if random.percent(4) {
        // No start at all: nothing is ever judged.
        let mut noise = |&size: &usize| Laid {
            start: false,
            bytes: (0..size).map(|_| random.byte()).collect(),
        };
        return sizes.iter().map(&mut noise).collect();
    }

    // Payloads before the first start, and how many bytes its pointer skips.
    let lead = if count > 1 && random.percent(35) {
        1 + random.index((count - 1).min(4))
    } else {
        0
    };
    if sizes[lead] < 2 {
        sizes[lead] = 184;
    }
    let around = |k: usize| (lead + k) % count;
    let mut skipped = 0;
    if sizes[lead] > 2 && random.percent(if lead > 0 { 60 } else { 30 }) {
        skipped = 1 + random.index(sizes[lead] - 2);
    }

    let mut laid: Vec<Laid> = Vec::new();
    let mut rest: Vec<u8> = Vec::new(); // of the open section
    let mut closing = false; // the open section is the one that goes around the seam
    for k in 0..count {
        let leading = k >= count - lead;
        if rest.is_empty() && sizes[around(k)] < 2 {
            sizes[around(k)] = 184;
        }
        let size = sizes[around(k)];
        let mut bytes = Vec::new();
        let mut start = false;
        if k == 0 {
            start = true;
            bytes.push(skipped as u8);
            bytes.resize(1 + skipped, 0);
        } else if !rest.is_empty() {
            let may_start = !leading && !closing && rest.len() + 1 < size;
            if may_start && random.percent(70) {
                start = true;
                bytes.push(rest.len() as u8);
                bytes.append(&mut rest);
            } else {
                let taken = rest.len().min(size);
                bytes.extend(rest.drain(..taken));
                bytes.resize(size, 255);
            }
        } else if leading {
            bytes.resize_with(size, || random.byte());
        } else {
            start = true;
            bytes.push(0);
        }

        // Sections from here to the payload's end.
        let mut first = true;
        while bytes.len() < size {
            let room = size - bytes.len();
            let until_first_start: usize = (k + 1..count).map(|i| sizes[around(i)]).sum();
            let until_lead: usize = (k + 1..count - lead).map(|i| sizes[around(i)]).sum();
            let around_seam = room + until_first_start + skipped;
            let may_close = (12..=1024).contains(&around_seam);
            let wanted = match (skipped > 0 || lead > 0, k + 1 == count - lead) {
                (true, true) => 97,
                (true, false) => 50,
                (false, _) => 10,
            };
            if may_close && random.percent(wanted) {
                closing = true;
                rest = section(random, around_seam);
            } else if !first && (room < 12 || random.percent(35)) && !(may_close && wanted == 97) {
                bytes.resize(size, 255);
                break;
            } else if room >= 12 && (until_lead == 0 || random.percent(60)) {
                let most = room.min(1024) as u64;
                let mut wished = random.within(12, most);
                if random.percent(15) {
                    wished = random.pick(&[12, most]);
                }
                rest = section(random, wished as usize);
            } else {
                // A section over several packets, ending before the seam if it can.
                let most = (room + until_lead).clamp(12, 1024);
                let least = (room + 1).clamp(12, most);
                let mut wished = random.within(least as u64, most as u64);
                if random.percent(15) {
                    wished = most as u64;
                }
                rest = section(random, wished as usize);
            }
            let taken = rest.len().min(room);
            bytes.extend(rest.drain(..taken));
            first = false;
        }
        laid.push(Laid { start, bytes });
    }

    // The skipped bytes end the section that goes around the seam.
    if closing && rest.len() == skipped {
        laid[0].bytes[1..=skipped].copy_from_slice(&rest);
    } else {
        let garbage = random.pick(&[255, 0, 77]);
        laid[0].bytes[1..=skipped].fill(garbage);
    }
    laid.rotate_right(lead);
    laid
}
