//! Many rounds by brute force: what two rounds decide must be what forty rounds show.

use crate::compare::{save, Tallies};
use crate::exported;
use crate::generator::{self, reel::set_clock, reel::ticks, Draft};
use crate::model::check::first_breach;
use crate::model::file::{judge, Verdict};
use crate::model::packet::{form, pcr, pid};
use crate::model::{CLOCK_VALUES, KIND_CLOCK};

/// How many rounds are judged.
const ROUNDS: usize = 40;

/// The reel with all clock values of each PID moved so that the clock is at 0, and so wraps, at a
/// place; `place` may be the reel's length, which is the seam.
fn wrap_at(draft: &Draft, place: usize) -> Draft {
    let mut moved = draft.clone();
    for entry in draft.sheet.entries.iter().filter(|e| e.kind == KIND_CLOCK) {
        let carries = |i: &usize| {
            let packet = &draft.packets[*i];
            form(packet, &draft.sheet).is_none()
                && pid(packet) == entry.pid
                && pcr(packet).is_some()
        };
        let places: Vec<usize> = (0..draft.packets.len()).filter(carries).collect();
        // The clock at the wanted place: as told there, or as it runs on from the value before,
        // or back from the first.
        let before = places
            .iter()
            .rev()
            .find(|&&p| p <= place)
            .or(places.first());
        let Some(&known) = before else {
            continue;
        };
        let value = pcr(&draft.packets[known]).unwrap() as i128;
        let rate = u64::from(draft.sheet.rate);
        let there = if known <= place {
            value + i128::from(ticks((place - known) as u64, rate))
        } else {
            value - i128::from(ticks((known - place) as u64, rate))
        };
        for p in places {
            let old = pcr(&draft.packets[p]).unwrap() as i128;
            let new = (old - there).rem_euclid(CLOCK_VALUES as i128);
            set_clock(&mut moved.packets[p], new as u128);
        }
    }
    moved
}

/// The reel with this number; two of three have a clock.
fn reel(seed: u64, index: usize, most: usize) -> Draft {
    let has_clock = |d: &Draft| d.sheet.entries.iter().any(|e| e.kind == KIND_CLOCK);
    (0..)
        .map(|i| generator::readable(seed, 1000 * index as u64 + i, most))
        .find(|d| index % 3 == 0 || has_clock(d))
        .expect("some reel has a clock")
}

/// Judges `reels` generated reels, each with the wrap at every place in turn; true if all agree.
pub fn run(reels: usize, seed: u64) -> bool {
    let mut tallies = Tallies::default();
    let mut wraps = 0;
    let mut differences = 0;
    for index in 0..reels {
        let most = if index % 8 == 0 { 60 } else { 24 };
        let draft = reel(seed, index, most);
        let file = draft.file();
        let plain = judge(&file);
        tallies.count(&file, &plain);
        let has_clock = draft.sheet.entries.iter().any(|e| e.kind == KIND_CLOCK);
        let last = if has_clock { draft.packets.len() } else { 0 };
        for place in 0..=last {
            wraps += 1;
            let moved = wrap_at(&draft, place);
            let file = moved.file();
            if let Err(difference) = judge_one(&moved, &file, &plain) {
                differences += 1;
                println!("DIFFERENCE seed {seed} index {index} wrap at {place}: {difference}");
                println!("  the file is kept in {}", save(&file, seed, index));
                break;
            }
        }
    }
    tallies.print();
    println!("{reels} reels with {wraps} wraps, {ROUNDS} rounds each, {differences} differences");
    differences == 0
}

fn judge_one(moved: &Draft, file: &[u8], plain: &Verdict) -> Result<(), String> {
    let two = judge(file);
    let breach = match two {
        Verdict::Refused(number) => return Err(format!("refused by {number}")),
        Verdict::Approved { .. } => None,
        Verdict::Broken { breach, .. } => Some(breach),
    };
    let many = first_breach(&moved.packets, &moved.sheet, ROUNDS);
    if many != breach {
        return Err(format!(
            "two rounds give {breach:?}, {ROUNDS} rounds {many:?}"
        ));
    }
    // Where the wrap falls decides nothing.
    if two != *plain {
        return Err(format!("{two:?} with the wrap moved, {plain:?} before"));
    }
    for buffer in exported::BUFFERS {
        exported::compare(file, &two, buffer)?;
    }
    Ok(())
}
