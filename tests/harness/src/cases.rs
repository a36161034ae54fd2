//! The worked reels, each with the report that it must have.

use crate::exported;
use crate::generator::tables::close;
use crate::generator::{reel::set_clock, Draft};
use crate::model::file::judge;
use crate::model::packet::{counter, pcr};
use crate::model::restamp::{run as rounds, tally};
use crate::model::stamps::{set_stamp, stamp};
use crate::model::{Entry, Packet, Sheet, CLOCK_VALUES, KIND_CLOCK, KIND_PES, KIND_SECTIONS};
use crate::programme::{programme, SAMPLE_PACKETS};

const PID: u16 = 0x100;

fn filler() -> Packet {
    let mut packet = [255; 188];
    packet[..4].copy_from_slice(&[0x47, 0x1F, 0xFF, 0x10]);
    packet
}

/// A packet of the PID with a payload of zeros.
fn plain(counter: u8) -> Packet {
    let mut packet = [0; 188];
    packet[..4].copy_from_slice(&[0x47, 0x01, 0x00, 0x10 | counter]);
    packet
}

/// A packet of the PID with an adaptation field of this length, and a payload or not.
fn field(length: u8, payload: bool, counter: u8) -> Packet {
    let mut packet = plain(counter);
    packet[3] = if payload { 0x30 } else { 0x20 } | counter;
    packet[4] = length;
    packet[5] = 0;
    packet[6..(5 + length as usize).min(188)].fill(255);
    packet
}

fn clock(value: u128, counter: u8) -> Packet {
    let mut packet = field(7, true, counter);
    packet[5] = 0x10;
    set_clock(&mut packet, value);
    packet
}

fn reel(kind: u8, packets: &[Packet], rate: u32, round_length: u64) -> Draft {
    let entries = vec![Entry { pid: PID, kind }];
    Draft {
        packets: packets.to_vec(),
        sheet: Sheet {
            entries,
            rate,
            round_length,
        },
    }
}

/// A section of this section_length in as many packets as it needs.
fn section(length: usize) -> Draft {
    let mut bytes = vec![0x5A; (3 + length).max(7)];
    bytes[0] = 0x42;
    bytes[1] = 0xB0 | (length >> 8) as u8;
    bytes[2] = length as u8;
    close(&mut bytes);
    bytes.insert(0, 0); // the pointer
    let mut packets = Vec::new();
    for (i, part) in bytes.chunks(184).enumerate() {
        let mut packet = plain(i as u8);
        packet[4..].fill(255);
        packet[4..4 + part.len()].copy_from_slice(part);
        packet[1] |= if i == 0 { 0x40 } else { 0 };
        packets.push(packet);
    }
    reel(KIND_SECTIONS, &packets, 188_000, 27_000)
}

/// The files with what must be reported of them.
fn reports() -> Vec<(&'static str, Vec<u8>, &'static str)> {
    let mut cases = Vec::new();

    for (ticks, expected) in [
        (53_827, "REEL 4 1\nBREACH 0 2 27\n"),
        (53_828, "REEL 4 1\nAPPROVED\n"),
        (54_172, "REEL 4 1\nAPPROVED\n"),
        (54_173, "REEL 4 1\nBREACH 0 2 27\n"),
    ] {
        for first in [0, CLOCK_VALUES - 1, CLOCK_VALUES - 53_828] {
            let second = (first + ticks) % CLOCK_VALUES;
            let packets = [clock(first, 0), filler(), clock(second, 1), filler()];
            let draft = reel(KIND_CLOCK, &packets, 188_000, 108_000);
            cases.push(("two clock values two packets apart", draft.file(), expected));
        }
    }

    // Both sides of the rule's first inequality equal: the clock may be no slower than this.
    for (ticks, expected) in [
        (300_000, "REEL 266 1\nAPPROVED\n"),
        (299_999, "REEL 266 1\nBREACH 0 133 27\n"),
    ] {
        let mut packets = vec![filler(); 266];
        packets[0] = clock(0, 0);
        packets[133] = clock(ticks, 1);
        let draft = reel(KIND_CLOCK, &packets, 2_250_000, 600_000);
        cases.push(("exactly at the border", draft.file(), expected));
    }

    let copied = [plain(5), plain(5), plain(6)];
    let draft = reel(KIND_PES, &copied, 188_000, 27_000);
    cases.push((
        "counters 5, 5 (copy), 6",
        draft.file(),
        "REEL 3 1\nAPPROVED\n",
    ));
    let draft = reel(KIND_PES, &[plain(5); 3], 188_000, 27_000);
    cases.push((
        "three equal packets",
        draft.file(),
        "REEL 3 1\nBREACH 0 2 25\n",
    ));

    for (own, expected) in [
        (5, "REEL 2 1\nAPPROVED\n"),
        (6, "REEL 2 1\nBREACH 0 1 25\n"),
    ] {
        let draft = reel(
            KIND_PES,
            &[plain(5), field(183, false, own)],
            188_000,
            27_000,
        );
        cases.push(("no payload after counter 5", draft.file(), expected));
    }

    for (length, payload, expected) in [
        (182, true, "REEL 1 1\nAPPROVED\n"),
        (182, false, "REEL 1 1\nBREACH 0 0 23\n"),
        (183, true, "REEL 1 1\nBREACH 0 0 23\n"),
        (183, false, "REEL 1 1\nAPPROVED\n"),
    ] {
        let draft = reel(KIND_PES, &[field(length, payload, 0)], 188_000, 27_000);
        cases.push(("adaptation lengths 182 and 183", draft.file(), expected));
    }

    for (length, expected) in [
        (8, "REEL 1 1\nBREACH 0 0 28\n"),
        (9, "REEL 1 1\nAPPROVED\n"),
        (1021, "REEL 6 1\nAPPROVED\n"),
        (1022, "REEL 6 1\nBREACH 0 0 28\n"),
    ] {
        cases.push((
            "least and greatest section_length",
            section(length).file(),
            expected,
        ));
    }

    for (length, expected) in [
        (54_000, "REEL 2 1\nAPPROVED\n"),
        (54_300, "REEL 2 1\nBREACH 1 0 27\n"),
    ] {
        let draft = reel(KIND_CLOCK, &[clock(0, 0), filler()], 188_000, length);
        cases.push(("the clock over the seam", draft.file(), expected));
    }

    let draft = reel(KIND_CLOCK, &[plain(0), plain(1)], 188_000, 27_000);
    cases.push(("no clock value", draft.file(), "REEL 2 1\nBREACH 0 2 31\n"));

    let sample = programme(SAMPLE_PACKETS);
    cases.push(("the sample reel", sample.file(), "REEL 240 4\nAPPROVED\n"));

    let sheet = Sheet {
        entries: Vec::new(),
        rate: 188_000,
        round_length: 27_000,
    };
    let one = Draft {
        packets: vec![filler()],
        sheet,
    };
    let mut file = filler().to_vec();
    file.extend([0x00, 0x02, 0xDE, 0x60]);
    file.extend([0x00, 0x00, 0x00, 0x00, 0x00, 0x00, 0x69, 0x78]);
    file.extend([
        0x00, 0x00, 0x00, 0x01, 0x00, 0x00, 0x00, 0x18, 0x52, 0x45, 0x45, 0x4C,
    ]);
    assert_eq!(file, one.file(), "the generator writes the worked file");
    assert_eq!(file.len(), 212);
    cases.push(("one filler packet", file, "REEL 1 0\nAPPROVED\n"));

    for (bytes, count) in [(187, 1), (375, 1), (375, 2)] {
        let mut parts = one.parts();
        parts.packets = [filler(), filler()].concat()[..bytes].to_vec();
        parts.count = count;
        cases.push(("no whole number of packets", parts.file(), "REFUSED 3\n"));
    }
    cases
}

/// The worked cases of restamping, which the own implementation must show.
fn restamping() -> Vec<(&'static str, bool)> {
    let mut cases = Vec::new();

    let draft = reel(KIND_PES, &[plain(5), plain(5), plain(6)], 188_000, 27_000);
    cases.push(("tally 2", tally(&draft.packets, &draft.sheet, PID) == 2));
    let run = rounds(&draft.packets, &draft.sheet, 2);
    let counters: Vec<u128> = run[3..].iter().map(counter).collect();
    cases.push(("counters 7, 7, 8", counters == [7, 7, 8]));

    let draft = reel(KIND_CLOCK, &[clock(CLOCK_VALUES - 1, 0)], 188_000, 300);
    let run = rounds(&draft.packets, &draft.sheet, 2);
    cases.push(("clock value moved to 299", pcr(&run[1]) == Some(299)));

    let mut packet = plain(0);
    packet[1] |= 0x40;
    packet[4..18].copy_from_slice(&[0, 0, 1, 0xC0, 0, 0, 0x80, 0x80, 5, 0x21, 0, 1, 0, 1]);
    set_stamp(&mut packet, 8 * 13, (1 << 33) - 1);
    let draft = reel(KIND_PES, &[packet], 188_000, 300);
    let run = rounds(&draft.packets, &draft.sheet, 2);
    cases.push(("stamp moved to 0", stamp(&run[1], 8 * 13) == 0));
    cases
}

/// Reports every worked reel; true if all are as they must be.
pub fn run() -> bool {
    let mut wrong = 0;
    let reports = reports();
    for (name, file, expected) in &reports {
        let verdict = judge(file);
        if verdict.text() != *expected {
            wrong += 1;
            println!(
                "WRONG {name}: own implementation {:?}, not {expected:?}",
                verdict.text()
            );
        }
        for buffer in exported::BUFFERS {
            if let Err(difference) = exported::compare(file, &verdict, buffer) {
                wrong += 1;
                println!("WRONG {name}: {difference}");
            }
        }
    }
    let restamping = restamping();
    for (name, right) in &restamping {
        if !right {
            wrong += 1;
            println!("WRONG {name}");
        }
    }
    println!(
        "{} worked cases, {wrong} wrong",
        reports.len() + restamping.len()
    );
    wrong == 0
}
