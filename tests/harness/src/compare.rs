//! Generated files, each reported by the exported call and by the implementation written apart.

use crate::exported;
use crate::generator;
use crate::model::file::{judge, read, Verdict};
use crate::shapes::{shapes, SHAPES};

/// The refusals that a report can give for a file.
const REFUSALS: [u32; 6] = [1, 2, 3, 4, 5, 9];

/// The rules that a report can name in round 1. Form, continuity and stamps cannot be broken
/// first there: what round 0 keeps of them, its restamped repetition keeps as well.
const SECOND_ROUND: [u32; 4] = [26, 27, 28, 29];

/// How often each outcome occurred.
#[derive(Default)]
pub struct Tallies {
    approved: usize,
    refused: [usize; 32],
    /// By round and rule.
    broken: [[usize; 32]; 2],
    /// Approved reels of each shape.
    shaped: [usize; SHAPES.len()],
}

impl Tallies {
    pub fn count(&mut self, file: &[u8], verdict: &Verdict) {
        match verdict {
            Verdict::Refused(number) => self.refused[*number as usize] += 1,
            Verdict::Approved { .. } => {
                self.approved += 1;
                let reel = read(file).expect("an approved file can be read");
                let found = shapes(&reel);
                for (i, shape) in SHAPES.iter().enumerate() {
                    self.shaped[i] += usize::from(found.contains(shape));
                }
            }
            Verdict::Broken { breach, .. } => {
                self.broken[breach.round][breach.rule as usize] += 1;
            }
        }
    }

    pub fn print(&self) {
        println!("approved    {:6}, among them with", self.approved);
        for (shape, times) in SHAPES.iter().zip(self.shaped) {
            println!("            {times:6} {shape}");
        }
        for number in REFUSALS {
            println!("refusal {number:2}  {:6}", self.refused[number as usize]);
        }
        for rule in 20..=31 {
            let [first, second] = self.broken.map(|round| round[rule]);
            println!("rule {rule}     {first:6} in round 0, {second:5} in round 1");
        }
    }

    /// What should have occurred and did not.
    fn missing(&self, files: usize) -> Vec<String> {
        let mut missing = Vec::new();
        for number in REFUSALS {
            if self.refused[number as usize] == 0 {
                missing.push(format!("refusal {number} never occurred"));
            }
        }
        for rule in 20..=31 {
            if self.broken[0][rule] == 0 {
                missing.push(format!("rule {rule} was never broken in round 0"));
            }
        }
        for rule in SECOND_ROUND {
            if self.broken[1][rule as usize] == 0 {
                missing.push(format!("rule {rule} was never broken in round 1"));
            }
        }
        for (shape, times) in SHAPES.iter().zip(self.shaped) {
            if times == 0 {
                missing.push(format!("no approved reel has {shape}"));
            }
        }
        if self.approved * 5 < files {
            missing.push(format!(
                "only {} of {files} files are approved",
                self.approved
            ));
        }
        missing
    }
}

/// Compares `files` generated files; true if all agree and every outcome occurred.
pub fn run(files: usize, seed: u64) -> bool {
    let mut tallies = Tallies::default();
    let mut differences = 0;
    for index in 0..files {
        let file = generator::file(seed, index as u64);
        let verdict = judge(&file);
        tallies.count(&file, &verdict);
        for buffer in exported::BUFFERS {
            if let Err(difference) = exported::compare(&file, &verdict, buffer) {
                differences += 1;
                let path = save(&file, seed, index);
                println!("DIFFERENCE seed {seed} index {index} buffer {buffer}: {difference}");
                println!("  the file is kept in {path}");
                break;
            }
        }
        if differences == 20 {
            println!("stopped after 20 differences, {} files", index + 1);
            return false;
        }
    }
    tallies.print();
    let missing = tallies.missing(files);
    for what in &missing {
        println!("MISSING {what}");
    }
    println!("{files} files, {differences} differences");
    differences == 0 && missing.is_empty()
}

/// Keeps a file for a closer look and says where.
pub fn save(file: &[u8], seed: u64, index: usize) -> String {
    let path = std::env::temp_dir().join(format!("reel-{seed}-{index}.reel"));
    match std::fs::write(&path, file) {
        Ok(()) => path.display().to_string(),
        Err(error) => format!("(not kept: {error})"),
    }
}
