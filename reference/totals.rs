//! The totals of a judging, and what its scenarios met.

use crate::judge::Counts;
use crate::memory::BankKind;
use crate::oracle::Shape;
use crate::scenario::{MemoryKind, Mode, Scenario};
use crate::trial::Tally;

#[derive(Default)]
pub struct Totals {
    scenarios: u64,
    counts: Counts,
    numbers: [u64; 32],
    most_levels: u64,
    most_nodes: u64,
    least_nodes: Option<u64>,
    pairs: u64,
    kinds: Vec<String>,
    fans: Vec<u64>,
    worn_after_32767: bool,
}

impl Totals {
    pub fn add(&mut self, scenario: &Scenario, tally: &Tally, counts: Counts, shape: Shape) {
        self.scenarios += 1;
        self.counts = sum(self.counts, counts, scenario);
        for (total, count) in self.numbers.iter_mut().zip(tally.counts) {
            *total += count;
        }
        self.pairs += shape.pairs;
        if shape.nodes == 0 {
            return;
        }
        self.most_levels = self.most_levels.max(shape.levels);
        self.most_nodes = self.most_nodes.max(shape.nodes);
        let room = scenario.cells / 32;
        self.least_nodes = Some(self.least_nodes.map_or(room, |least| least.min(room)));
        remember(&mut self.fans, scenario.fan);
        remember(
            &mut self.kinds,
            format!("{:?} {:?}", scenario.memory, scenario.order),
        );
        self.worn_after_32767 |= scenario.mode == Mode::Worn
            && scenario.keys == 1
            && tally.counts[3] == 32_767
            && tally.counts[12] > 0;
    }

    pub fn print(&self) {
        let Counts {
            steps,
            finds,
            puts,
            turned_back,
            passed,
            abandons,
            refusals,
            ..
        } = self.counts;
        println!("total of {} scenarios: {steps} steps", self.scenarios);
        println!("finds {finds} puts {puts} turned back {turned_back} passed {passed} abandons {abandons} refusals {refusals}");
        println!("pairs held against the plain map: {}", self.pairs);
        let numbers: Vec<String> = (0..32)
            .filter(|&number| self.numbers[number] > 0)
            .map(|number| format!("{number}:{}", self.numbers[number]))
            .collect();
        println!("numbers {}", numbers.join(" "));
        for (what, met) in self.aims() {
            println!("{} {what}", if met { "met" } else { "MISSED" });
        }
    }

    /// What the scenarios are there for, and whether they met it.
    fn aims(&self) -> Vec<(String, bool)> {
        let counts = &self.counts;
        let reports = (0..=14).chain([21, 22, 23]).chain(25..=31);
        let missing: Vec<usize> = reports
            .filter(|&number| self.numbers[number] == 0)
            .collect();
        vec![
            (
                format!("every report and every refusal but 24, missing {missing:?}"),
                missing.is_empty(),
            ),
            ("a million steps".to_string(), counts.steps >= 1_000_000),
            (
                format!("memory and order pairs: {} of 21", self.kinds.len()),
                self.kinds.len() == 21,
            ),
            (
                format!("fans 3 to 13: {} of 11", self.fans.len()),
                self.fans.len() == 11,
            ),
            (
                "a memory of one node".to_string(),
                self.least_nodes == Some(1),
            ),
            (
                format!("2,048 nodes in use, most {}", self.most_nodes),
                self.most_nodes == 2_048,
            ),
            (
                format!("four levels, most {}", self.most_levels),
                self.most_levels >= 4,
            ),
            (
                "one key put 32,767 times in two-byte cells, then 12".to_string(),
                self.worn_after_32767,
            ),
            (
                format!(
                    "key 65,535 taken in two-byte cells: {}",
                    counts.key_65535_taken
                ),
                counts.key_65535_taken > 0,
            ),
            (
                format!(
                    "key 65,536 refused with 25 in two-byte cells: {}",
                    counts.key_65536_refused
                ),
                counts.key_65536_refused > 0,
            ),
            (
                format!("abandons on the way to post: {}", counts.posts_abandoned),
                counts.posts_abandoned > 0,
            ),
            (
                format!("eight seats at once, most {}", counts.most_working),
                counts.most_working == 8,
            ),
        ]
    }
}

/// The keys at the edge of two bytes count in memories of two-byte cells alone.
fn sum(total: Counts, more: Counts, scenario: &Scenario) -> Counts {
    let two_bytes = u64::from(scenario.memory == MemoryKind::Single(BankKind::Bytes(2)));
    Counts {
        steps: total.steps + more.steps,
        finds: total.finds + more.finds,
        puts: total.puts + more.puts,
        turned_back: total.turned_back + more.turned_back,
        passed: total.passed + more.passed,
        abandons: total.abandons + more.abandons,
        posts_abandoned: total.posts_abandoned + more.posts_abandoned,
        refusals: total.refusals + more.refusals,
        most_working: total.most_working.max(more.most_working),
        key_65535_taken: total.key_65535_taken + two_bytes * more.key_65535_taken,
        key_65536_refused: total.key_65536_refused + two_bytes * more.key_65536_refused,
    }
}

fn remember<T: PartialEq>(seen: &mut Vec<T>, new: T) {
    if !seen.contains(&new) {
        seen.push(new);
    }
}
