//! The form of a packet, rules 20 to 24, and the fields of a sound one.

use super::{bits, Packet, Sheet, KIND_CLOCK, NULL_PID};

pub fn pid(packet: &Packet) -> u16 {
    bits(packet, 11, 13) as u16
}

pub fn is_null(packet: &Packet) -> bool {
    pid(packet) == NULL_PID
}

pub fn start_flag(packet: &Packet) -> bool {
    bits(packet, 9, 1) == 1
}

pub fn counter(packet: &Packet) -> u128 {
    bits(packet, 28, 4)
}

/// adaptation_field_control: the upper bit announces an adaptation field, the lower a payload.
fn control(packet: &Packet) -> u128 {
    bits(packet, 26, 2)
}

fn has_field(packet: &Packet) -> bool {
    control(packet) >= 0b10
}

fn field_length(packet: &Packet) -> usize {
    packet[4] as usize
}

/// Whether there is a flags byte with PCR_flag in it.
fn pcr_flag(packet: &Packet) -> bool {
    has_field(packet) && field_length(packet) >= 1 && bits(packet, 43, 1) == 1
}

/// The first rule of form that a packet breaks; a packet that breaks none is sound.
pub fn form(packet: &Packet, sheet: &Sheet) -> Option<u32> {
    if packet[0] != 0x47 {
        return Some(20);
    }

    let error = bits(packet, 8, 1) == 1;
    let scrambled = bits(packet, 24, 2) != 0;
    let odd_null = is_null(packet) && (start_flag(packet) || control(packet) != 0b01);
    if error || scrambled || odd_null {
        return Some(21);
    }

    if !is_null(packet) && sheet.kind(pid(packet)).is_none() {
        return Some(22);
    }

    if field_breach(packet) {
        return Some(23);
    }

    if pcr_flag(packet) {
        let extension = bits(packet, 87, 9);
        if sheet.kind(pid(packet)) != Some(KIND_CLOCK) || extension > 299 {
            return Some(24);
        }
    }
    None
}

/// Whether the adaptation field breaks rule 23.
fn field_breach(packet: &Packet) -> bool {
    let length = field_length(packet);
    match control(packet) {
        0b00 => return true,
        0b01 => return false,
        0b10 if start_flag(packet) || length != 183 => return true,
        0b11 if length > 182 => return true,
        _ => {}
    }
    if length == 0 {
        return false; // no flags byte, nothing to ask
    }
    let discontinuity = bits(packet, 40, 1) == 1;
    let opcr_splicing_private_extension = bits(packet, 44, 4) != 0;
    if discontinuity || opcr_splicing_private_extension {
        return true;
    }
    if pcr_flag(packet) && length < 7 {
        return true;
    }
    // The field is bytes 5 to 5 + length: the flags, six bytes of PCR if any, and stuffing.
    let stuffing = if pcr_flag(packet) { 12 } else { 6 };
    packet[stuffing..5 + length].iter().any(|&b| b != 255)
}

/// The payload of a sound packet, if it has one.
pub fn payload(packet: &Packet) -> Option<&[u8]> {
    match control(packet) {
        0b01 => Some(&packet[4..]),
        0b11 => Some(&packet[5 + field_length(packet)..]),
        _ => None,
    }
}

/// The clock value of a sound packet, if it has one.
pub fn pcr(packet: &Packet) -> Option<u128> {
    pcr_flag(packet).then(|| bits(packet, 48, 33) * 300 + bits(packet, 87, 9))
}
