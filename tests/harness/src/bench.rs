//! The verified check and the plain Rust one, timed in one run on the same reels.
//!
//! The library brings
//!
//! ```c
//! uint64_t reel_check(const uint8_t *file, size_t file_len);
//! ```
//!
//! which reads a file of any length, checks its reel and answers 0 for an approval.

use crate::fast;
use crate::generator::tables::close;
use crate::generator::Draft;
use crate::model::packet;
use crate::programme::{programme, PICTURE_PID};
use std::hint::black_box;
use std::time::{Duration, Instant};

/// How long each check is timed at each size, in turns with the others.
const TURNS: usize = 7;
const TURN_TIME: Duration = Duration::from_millis(150);

/// Seconds for one check, as the mean over one turn.
fn turn(check: &mut dyn FnMut()) -> f64 {
    let begun = Instant::now();
    let mut times = 0;
    while times == 0 || begun.elapsed() < TURN_TIME {
        check();
        times += 1;
    }
    begun.elapsed().as_secs_f64() / f64::from(times)
}

/// The programme with a section in every packet that does not bring the clock, so that the CRC is
/// what takes the time.
fn tables(count: usize) -> Draft {
    let mut draft = programme(count);
    // The PAT's packet with a section that fills it.
    let mut full = draft.packets[0];
    full[5..]
        .iter_mut()
        .zip(0..)
        .for_each(|(byte, i)| *byte = i);
    full[5..8].copy_from_slice(&[0x42, 0xB0, 180]);
    close(&mut full[5..]);

    let mut counters = [0u8; 2];
    for packet in &mut draft.packets {
        let clock = packet::pid(packet) == PICTURE_PID && packet::pcr(packet).is_some();
        if !clock {
            *packet = full;
        }
        let counter = &mut counters[usize::from(clock)];
        packet[3] = packet[3] & 0xF0 | *counter;
        *counter = (*counter + 1) % 16;
    }
    draft
}

/// Times the checks on reels of a thousand to a million packets, and the reports.
pub fn run() -> bool {
    let mut passed = true;
    for (name, make) in [
        ("programme", programme as fn(usize) -> Draft),
        ("tables", tables as fn(usize) -> Draft),
    ] {
        println!("{name}:");
        println!("  packets  check          packets/s     MB/s  ns/packet   / lean  / fetched");
        for count in [1_000, 10_000, 100_000, 1_000_000] {
            passed &= size(&make(count));
        }
    }
    passed & reports()
}

/// Times the report on files up to the longest that it takes.
fn reports() -> bool {
    let mut passed = true;
    println!("report:");
    println!("  packets  plain us  verified us  verified / plain");
    for count in [10, 100, 348] {
        let file = programme(count).file();
        let mut out = [[0u8; 64]; 2];
        let mut best = [f64::INFINITY; 2];
        let [plain, verified] = &mut out;
        for _ in 0..TURNS {
            best[0] = best[0].min(turn(&mut || {
                black_box(fast::report(black_box(&file), plain));
            }));
            best[1] = best[1].min(turn(&mut || {
                black_box(crate::exported::report(black_box(&file), verified));
            }));
        }
        passed &= plain == verified;
        let [p, v] = best.map(|seconds| seconds * 1e6);
        println!("{count:9}  {p:8.2}  {v:11.2}  {:16.2}", v / p);
    }
    passed
}

fn size(draft: &Draft) -> bool {
    let reel = &draft.packets;
    let sheet = &draft.sheet;
    if fast::lean(reel, sheet).is_some() || fast::fetched(reel, sheet).is_some() {
        println!("the reel is not approved");
        return false;
    }
    let mut lean = || {
        black_box(fast::lean(black_box(reel), black_box(sheet)));
    };
    let mut fetched = || {
        black_box(fast::fetched(black_box(reel), black_box(sheet)));
    };
    #[cfg(not(feature = "standin"))]
    let mut wrong = 0;
    #[cfg(not(feature = "standin"))]
    let mut verified = {
        let file = draft.file();
        let wrong = &mut wrong;
        move || {
            let answer = crate::exported::check(black_box(&file));
            *wrong += usize::from(black_box(answer) != 0);
        }
    };
    let mut checks: Vec<(&str, &mut dyn FnMut())> =
        vec![("plain lean", &mut lean), ("plain fetched", &mut fetched)];
    #[cfg(not(feature = "standin"))]
    checks.push(("verified", &mut verified));

    // In turns, so that a busy moment of the machine does not fall on one of them; the best counts.
    let mut best = vec![f64::INFINITY; checks.len()];
    for _ in 0..TURNS {
        for (i, (_, check)) in checks.iter_mut().enumerate() {
            best[i] = best[i].min(turn(check));
        }
    }
    let count = reel.len() as f64;
    for (i, (name, _)) in checks.iter().enumerate() {
        println!(
            "{:9}  {name:13} {:10.0} {:8.0} {:10.1} {:8.2} {:10.2}",
            reel.len(),
            count / best[i],
            count * 188.0 / best[i] / 1e6,
            best[i] / count * 1e9,
            best[i] / best[0],
            best[i] / best[1],
        );
    }
    drop(checks);
    #[cfg(not(feature = "standin"))]
    if wrong > 0 {
        println!("the verified check did not approve, in {wrong} calls");
        return false;
    }
    true
}
