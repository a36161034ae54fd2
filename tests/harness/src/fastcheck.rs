//! The fast check compared with the plain one.

use crate::fast;
use crate::generator;
use crate::generator::random::Random;
use crate::model::check::first_breach;
use crate::model::file::read;
use crate::model::{Packet, Sheet};
use crate::programme::programme;

/// Compares both ways of the fast check on generated reels; true if all agree.
pub fn run(files: usize, seed: u64) -> bool {
    let mut reels = 0;
    let mut differences = 0;
    for index in 0..files {
        let Ok(reel) = read(&generator::file(seed, index as u64)) else {
            continue;
        };
        reels += 1;
        let name = format!("seed {seed} index {index}");
        differences += usize::from(!agree(&reel.packets, &reel.sheet, &name));
    }
    // Reels too long for a file: the programme, damaged more and more, and clock values just
    // 10,000 places apart and one more.
    let random = &mut Random::new(seed, files as u64);
    let mut long = vec![programme(2_000)];
    for i in 0..20 {
        let mut draft = long[i].clone();
        let place = random.index(draft.packets.len());
        draft.packets[place][random.index(188)] ^= 1 << random.below(8);
        long.push(draft);
    }
    for count in [9_999, 10_000, 10_001] {
        let mut draft = programme(count);
        draft.sheet.round_length = 0;
        let (clock, null) = (draft.packets[2], draft.packets[11]);
        draft.packets.fill(null);
        draft.packets[0] = clock;
        long.push(draft);
    }
    for draft in long {
        reels += 1;
        differences += usize::from(!agree(&draft.packets, &draft.sheet, "long reel"));
    }
    println!("{reels} reels, {differences} differences");
    differences == 0
}

/// Whether both ways of the fast check answer what the plain one does.
fn agree(reel: &[Packet], sheet: &Sheet, name: &str) -> bool {
    let plain = first_breach(reel, sheet, 2);
    let lean = fast::lean(reel, sheet);
    let fetched = fast::fetched(reel, sheet);
    if lean != plain || fetched != plain {
        println!("DIFFERENCE {name}: plain {plain:?}, lean {lean:?}, fetched {fetched:?}");
        return false;
    }
    true
}
