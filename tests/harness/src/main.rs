//! The outside test of the reel report; see README.md.

mod bench;
mod brute;
mod cases;
mod compare;
mod exported;
mod fast;
mod fastcheck;
mod fastplay;
mod generator;
#[cfg(feature = "leaves")]
mod leaves;
mod model;
mod pile;
mod programme;
mod sends;
mod shapes;
mod statements;

use std::process::ExitCode;

const USAGE: &str = "usage:
  harness compare [FILES [SEED]]   generated files, exported report against the own one (20000 1)
  harness brute [REELS [SEED]]     forty rounds against the two of the check (300 1)
  harness cases                    the worked reels
  harness fastcheck [FILES [SEED]] the check written for speed against the plain one (20000 1)
  harness bench                    times the checks and the reports
  harness sends REELPLAY           times the sends of the program reelplay, a path, and of fastplay
  harness fastplay PATH ROUNDS     rounds of a file by the player written for speed, on standard output
  harness leaves                   times form, payload and moving (built with the features standin,leaves)
  harness sample PATH              writes the sample reel
  harness report PATH              what the own implementation reports of a file
  harness play PATH ROUNDS         its restamped rounds of a file, on standard output
  harness pile PATH ROUNDS PLAYED  played rounds of a file, checked as a reel of their own
  harness statements [SEED]        small reels with their answers, for the prover to compute";

fn main() -> ExitCode {
    let arguments: Vec<String> = std::env::args().skip(1).collect();
    let number = |place: usize, default: u64| match arguments.get(place) {
        None => default,
        Some(text) => text.parse().unwrap_or_else(|_| {
            eprintln!("{text} is not a number");
            std::process::exit(2)
        }),
    };
    let passed = match arguments.first().map(String::as_str) {
        Some("compare") => compare::run(number(1, 20_000) as usize, number(2, 1)),
        Some("brute") => brute::run(number(1, 300) as usize, number(2, 1)),
        Some("cases") => cases::run(),
        Some("fastcheck") => fastcheck::run(number(1, 20_000) as usize, number(2, 1)),
        Some("bench") => bench::run(),
        #[cfg(feature = "leaves")]
        Some("leaves") => leaves::run(),
        Some("sample") if arguments.len() == 2 => {
            let draft = programme::programme(programme::SAMPLE_PACKETS);
            match std::fs::write(&arguments[1], draft.file()) {
                Ok(()) => true,
                Err(error) => {
                    eprintln!("{}: {error}", arguments[1]);
                    false
                }
            }
        }
        Some("sends") if arguments.len() == 2 => sends::run(&arguments[1]),
        Some("fastplay") if arguments.len() == 3 => {
            fastplay::run(&arguments[1], number(2, 1) as u32)
        }
        Some("statements") => statements::run(number(1, 1)),
        Some("pile") if arguments.len() == 4 => {
            pile::run(&arguments[1], number(2, 1) as usize, &arguments[3])
        }
        Some("play") if arguments.len() == 3 => play(&arguments[1], number(2, 1) as usize),
        Some("report") if arguments.len() == 2 => match std::fs::read(&arguments[1]) {
            Ok(file) => {
                print!("{}", model::file::judge(&file).text());
                true
            }
            Err(error) => {
                eprintln!("{}: {error}", arguments[1]);
                false
            }
        },
        _ => {
            eprintln!("{USAGE}");
            return ExitCode::from(2);
        }
    };
    if passed {
        ExitCode::SUCCESS
    } else {
        ExitCode::FAILURE
    }
}

/// Writes so many restamped rounds of a file to standard output.
fn play(path: &str, rounds: usize) -> bool {
    use std::io::Write;
    let file = match std::fs::read(path) {
        Ok(file) => file,
        Err(error) => {
            eprintln!("{path}: {error}");
            return false;
        }
    };
    match model::file::read(&file) {
        Ok(reel) => {
            let run = model::restamp::run(&reel.packets, &reel.sheet, rounds);
            std::io::stdout().write_all(&run.concat()).is_ok()
        }
        Err(refusal) => {
            eprintln!("REFUSED {refusal}");
            false
        }
    }
}
