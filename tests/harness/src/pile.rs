//! Played rounds as a reel of their own: the same packets as this implementation's, and approved again.

use crate::exported;
use crate::generator::Draft;
use crate::model::check::first_breach;
use crate::model::{file, restamp, Sheet, CLOCK_VALUES};

/// Checks what was played of a file, `rounds` rounds of it.
pub fn run(path: &str, rounds: usize, played: &str) -> bool {
    let (Ok(bytes), Ok(played)) = (std::fs::read(path), std::fs::read(played)) else {
        eprintln!("a file cannot be read");
        return false;
    };
    let Ok(reel) = file::read(&bytes) else {
        eprintln!("{path} is refused");
        return false;
    };
    let run = restamp::run(&reel.packets, &reel.sheet, rounds);
    if run.concat() != played {
        println!("what was played is not the restamped rounds");
        return false;
    }
    let round_length = (u128::from(reel.sheet.round_length) * rounds as u128 % CLOCK_VALUES) as u64;
    let pile = Draft {
        packets: run,
        sheet: Sheet {
            round_length,
            ..reel.sheet
        },
    };
    if first_breach(&pile.packets, &pile.sheet, 2).is_some() || exported::check(&pile.file()) != 0 {
        println!("the played rounds are not approved as a reel");
        return false;
    }
    println!("{rounds} played rounds are approved as a reel of their own");
    true
}
