//! The verified player and the plain Rust one, timed as programs that write their packets to
//! nowhere: the time of many rounds less that of few, so that loading and checking fall out.

use crate::fastplay;
use crate::programme::programme;
use std::path::Path;
use std::process::{Command, Stdio};
use std::time::Instant;

const TURNS: usize = 5;
/// How many packets are sent, beyond those of the few rounds, for each time.
const PACKETS: usize = 4_000_000;

/// Seconds that a program takes to play rounds of a file.
fn seconds(program: &Path, words: &[&str], file: &Path, rounds: usize) -> Option<f64> {
    let begun = Instant::now();
    let status = Command::new(program)
        .args(words)
        .arg(file)
        .arg(rounds.to_string())
        .stdout(Stdio::null())
        .stderr(Stdio::null())
        .status()
        .ok()?;
    status.success().then(|| begun.elapsed().as_secs_f64())
}

/// Nanoseconds for each packet sent.
fn slope(program: &Path, words: &[&str], file: &Path, count: usize) -> Option<f64> {
    let more = PACKETS.div_ceil(count);
    let few = seconds(program, words, file, 1)?;
    let many = seconds(program, words, file, 1 + more)?;
    Some((many - few) / (more * count) as f64 * 1e9)
}

/// Times the player of `reelplay`, a path, beside the plain one of this program.
pub fn run(reelplay: &str) -> bool {
    let Ok(plain) = std::env::current_exe() else {
        return false;
    };
    let verified = Path::new(reelplay);
    let file = std::env::temp_dir().join(format!("sends-{}.reel", std::process::id()));
    println!("  packets  plain ns/packet  verified ns/packet  verified / plain");
    let mut passed = true;
    for count in [1_000, 10_000, 100_000, 1_000_000] {
        let draft = programme(count);
        if count <= 1_000 && !fastplay::agrees(&draft.packets, &draft.sheet, 3) {
            println!("the plain player is wrong");
            passed = false;
        }
        if std::fs::write(&file, draft.file()).is_err() {
            println!("{} cannot be written", file.display());
            return false;
        }
        drop(draft);
        let mut best = [f64::INFINITY; 2];
        for _ in 0..TURNS {
            let both = [
                slope(&plain, &["fastplay"], &file, count),
                slope(verified, &[], &file, count),
            ];
            for (best, time) in best.iter_mut().zip(both) {
                match time {
                    Some(time) => *best = best.min(time),
                    None => passed = false,
                }
            }
        }
        let [p, v] = best;
        println!("{count:9}  {p:15.1}  {v:18.1}  {:16.2}", v / p);
    }
    let _ = std::fs::remove_file(&file);
    passed
}
