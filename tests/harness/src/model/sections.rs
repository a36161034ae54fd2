//! The sections of one PID, rules 28 and 29.

/// What one packet with a payload brings: its start flag and the payload.
pub struct Brought<'a> {
    pub start: bool,
    pub payload: &'a [u8],
}

/// The first offence, in byte order, in all that was brought on a PID of kind 1: the index of the
/// packet that brought the offending byte, and the rule.
pub fn first_offence(brought: &[Brought]) -> Option<(usize, u32)> {
    let first_start = brought.iter().position(|b| b.start)?;
    // The bytes gathered of the open section.
    let mut open: Option<Vec<u8>> = None;
    for (index, packet) in brought.iter().enumerate().skip(first_start) {
        let judged = if packet.start {
            with_start(&mut open, packet.payload, index == first_start)
        } else {
            without_start(&mut open, packet.payload)
        };
        if let Err(rule) = judged {
            return Some((index, rule));
        }
    }
    None
}

/// A payload with the start flag: pointer, end of the open section, then a section starts.
fn with_start(open: &mut Option<Vec<u8>>, payload: &[u8], first: bool) -> Result<(), u32> {
    let pointer = payload[0] as usize;
    if 1 + pointer >= payload.len() {
        return Err(28);
    }
    let (before, after) = payload[1..].split_at(pointer);
    if !first {
        for &byte in before {
            // No section is open, or it ended sooner than the pointer says.
            if open.is_none() {
                return Err(28);
            }
            gather(open, byte)?;
        }
        // The open section should have ended by now.
        if open.is_some() {
            return Err(28);
        }
    }
    *open = Some(Vec::new());
    let mut stuffing = false;
    for &byte in after {
        if open.is_none() && byte == 255 {
            stuffing = true;
        } else if stuffing {
            return Err(28);
        } else if open.is_none() {
            *open = Some(Vec::new());
        }
        if open.is_some() {
            gather(open, byte)?;
        }
    }
    Ok(())
}

/// A payload without the start flag: the open section goes on, and after its end all is stuffing.
fn without_start(open: &mut Option<Vec<u8>>, payload: &[u8]) -> Result<(), u32> {
    if open.is_none() {
        return Err(28);
    }
    for &byte in payload {
        if open.is_some() {
            gather(open, byte)?;
        } else if byte != 255 {
            return Err(28);
        }
    }
    Ok(())
}

/// Adds a byte to the open section, judges it there, and closes the section at its last byte.
fn gather(open: &mut Option<Vec<u8>>, byte: u8) -> Result<(), u32> {
    let section = open.as_mut().expect("a section is open");
    section.push(byte);
    match section.len() {
        1 if byte == 255 => return Err(28),
        2 if byte < 128 => return Err(28), // section_syntax_indicator is the top bit
        3 if !(9..=1021).contains(&section_length(section)) => return Err(28),
        _ => {}
    }
    if section.len() >= 3 && section.len() == 3 + section_length(section) {
        if crc(section) != 0 {
            return Err(29);
        }
        *open = None;
    }
    Ok(())
}

/// section_length: the lower four bits of the second byte and the third.
fn section_length(section: &[u8]) -> usize {
    super::bits(section, 12, 12) as usize
}

/// CRC_32 with polynomial 0x04C11DB7, started with all ones and not inverted at the end, one bit
/// at a time.
pub fn crc(bytes: &[u8]) -> u32 {
    let mut register: u32 = 0xFFFF_FFFF;
    for byte in bytes {
        for i in (0..8).rev() {
            let incoming = u32::from(byte >> i & 1);
            let outgoing = register >> 31;
            register <<= 1;
            if incoming != outgoing {
                register ^= 0x04C1_1DB7;
            }
        }
    }
    register
}
