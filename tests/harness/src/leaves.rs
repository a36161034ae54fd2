//! Form with payload, and moving on, timed packet by packet beside the same in plain Rust.
//!
//! Only with the feature `leaves`, which links the library named by `REEL_BENCH_LIB`
//! (default `../../target/staticlib/libbench.a`) with
//!
//! ```c
//! size_t bench_payload(const uint8_t packet[188]);
//! void bench_move(uint8_t packet[188], uint64_t steps, uint64_t ticks);
//! ```

use crate::fast::restamp;
use crate::model::{Packet, KIND_CLOCK};
use crate::programme::programme;
use std::hint::black_box;
use std::time::Instant;

extern "C" {
    fn bench_payload(packet: *const u8) -> usize;
    fn bench_move(packet: *mut u8, steps: u64, ticks: u64);
}

const PACKETS: usize = 1_000;
const TURNS: usize = 400;

/// Whether a packet of a PID of the clock kind is sound.
fn is_sound(packet: &Packet) -> bool {
    let [sync, one, two, three, length, flags, ..] = *packet;
    let pid = u16::from_be_bytes([one & 0x1F, two]);
    if sync != 0x47 || one & 0x80 != 0 || three & 0xC0 != 0 {
        return false;
    }
    if pid == 8191 && (one & 0x40 != 0 || three & 0x30 != 0x10) {
        return false;
    }
    match three & 0x30 {
        0x00 => return false,
        0x10 => return true,
        0x20 if one & 0x40 != 0 || length != 183 => return false,
        0x30 if length > 182 => return false,
        _ => {}
    }
    if length == 0 {
        return true;
    }
    let clock = flags & 0x10 != 0;
    let from = if clock { 12 } else { 6 };
    let end = 5 + usize::from(length);
    if flags & 0x8F != 0 || clock && length < 7 || packet[from..end].iter().any(|b| *b != 255) {
        return false;
    }
    !clock || u16::from_be_bytes([packet[10] & 1, packet[11]]) <= 299
}

#[inline(never)]
fn plain_payload(packet: &Packet) -> usize {
    if !is_sound(packet) {
        return 1000;
    }
    match packet[3] & 0x30 {
        0x10 => 184,
        0x30 => 183 - usize::from(packet[4]),
        _ => 0,
    }
}

#[inline(never)]
fn plain_move(packet: &mut Packet, steps: u64, ticks: u64) {
    if is_sound(packet) {
        restamp(packet, KIND_CLOCK, (steps % 16) as u8, ticks % (300 << 33));
    }
}

/// The best time of a turn over all packets, in nanoseconds for each.
fn best(packets: &mut [Packet], work: &mut dyn FnMut(&mut Packet)) -> f64 {
    let mut best = f64::INFINITY;
    for _ in 0..TURNS {
        let begun = Instant::now();
        packets.iter_mut().for_each(&mut *work);
        best = best.min(begun.elapsed().as_nanos() as f64 / PACKETS as f64);
    }
    best
}

pub fn run() -> bool {
    let mut packets = programme(PACKETS).packets;
    let mut moved = packets.clone();
    for packet in &packets {
        // Safety: a packet has 188 bytes.
        if unsafe { bench_payload(packet.as_ptr()) } != plain_payload(packet) {
            println!("the payloads differ");
            return false;
        }
    }
    for (a, b) in packets.iter_mut().zip(&mut moved) {
        unsafe { bench_move(a.as_mut_ptr(), 3, 27_000) };
        plain_move(b, 3, 27_000);
    }
    if packets != moved {
        println!("the moved packets differ");
        return false;
    }
    let plain = best(&mut packets, &mut |p| {
        black_box(plain_payload(black_box(p)));
    });
    let verified = best(&mut packets, &mut |p| {
        black_box(unsafe { bench_payload(black_box(p).as_ptr()) });
    });
    println!(
        "form and payload: plain {plain:.1} ns, verified {verified:.1} ns, {:.2}",
        verified / plain
    );
    let plain = best(&mut packets, &mut |p| plain_move(black_box(p), 3, 27_000));
    let verified = best(&mut packets, &mut |p| unsafe {
        bench_move(black_box(p).as_mut_ptr(), 3, 27_000)
    });
    println!(
        "moving on: plain {plain:.1} ns, verified {verified:.1} ns, {:.2}",
        verified / plain
    );
    true
}
