//! Small generated reels with the answers of this implementation, as statements that the prover computes.

use crate::generator::{readable, Draft};
use crate::model::check::first_breach;
use crate::model::restamp;
use crate::model::{Packet, KIND_PES, KIND_SECTIONS};
use std::collections::BTreeMap;

const MOST_PACKETS: usize = 3;
const FOR_EACH_ANSWER: usize = 3;
const APPROVED: usize = 8;

/// A list of bytes, longer runs of equal ones put together.
fn runs(bytes: &[u8]) -> String {
    let mut text = String::new();
    let mut open = 0;
    let mut place = 0;
    while place < bytes.len() {
        let byte = bytes[place];
        let length = bytes[place..].iter().take_while(|b| **b == byte).count();
        if length < 4 {
            text += &format!("{byte} ∷ ");
            place += 1;
        } else {
            text += &format!("(replicate {length} {byte} ++ ");
            open += 1;
            place += length;
        }
    }
    format!("({text}[]{})", ")".repeat(open))
}

fn packets(packets: &[Packet]) -> String {
    let lines: Vec<String> = packets
        .iter()
        .map(|packet| format!("      {}", runs(packet)))
        .collect();
    format!("(\n{} ∷ [])", lines.join(" ∷\n"))
}

fn statement(draft: &Draft) -> String {
    let sheet = &draft.sheet;
    let entries: String = sheet
        .entries
        .iter()
        .map(|entry| {
            let kind = match entry.kind {
                KIND_PES => "Pes",
                KIND_SECTIONS => "Sections",
                _ => "Clock",
            };
            format!("record {{ pid = {}; kind = {kind} }} ∷ ", entry.pid)
        })
        .collect();
    let answer = match first_breach(&draft.packets, sheet, 2) {
        None => "None".to_string(),
        Some(b) => format!(
            "(Some (record {{ round = {}; packet = {}; rule = {} }}))",
            b.round, b.packet, b.rule
        ),
    };
    let last = restamp::run(&draft.packets, sheet, 4)
        .pop()
        .expect("a packet");
    format!(
        "record\n    {{ entries = ({entries}[])\n    ; rate = {}\n    ; round = {}\n    ; packets = {}\n    ; answer = {answer}\n    ; last = {} }}",
        sheet.rate,
        sheet.round_length,
        packets(&draft.packets),
        runs(&last)
    )
}

/// Prints a list of cases: some approved ones, and some for each rule in each round.
pub fn run(seed: u64) -> bool {
    let mut seen: BTreeMap<Option<(u64, u32)>, usize> = BTreeMap::new();
    let mut cases = Vec::new();
    for index in 0..200_000 {
        let draft = readable(seed, index, MOST_PACKETS);
        if draft.packets.len() > MOST_PACKETS || draft.sheet.entries.len() > 3 {
            continue;
        }
        let answer =
            first_breach(&draft.packets, &draft.sheet, 2).map(|b| (b.round as u64, b.rule as u32));
        let wanted = if answer.is_none() {
            APPROVED
        } else {
            FOR_EACH_ANSWER
        };
        let count = seen.entry(answer).or_insert(0);
        if *count < wanted {
            *count += 1;
            cases.push(statement(&draft));
        }
    }
    println!("    {}\n    ∷ []", cases.join("\n    ∷ "));
    for (answer, count) in seen {
        eprintln!("{answer:?}: {count}");
    }
    true
}
