//! What the fixed seeds reach: each pair of call and answer, and the situations that answers don't show.
//! Which pairs can occur at all is worked out from 01 in `pairs`; the report names what is missing, and whatever came
//! up although it was held impossible.

pub mod calls_seen;
pub mod pairs;
pub mod ticks_seen;

use crate::calls::answer;
use crate::calls::number::{ADVANCE, LAST};
use crate::cases::Maker;
use crate::generate::{self, Profile};
use crate::replay::{decode, RECORD};
use crate::table::Table;
use crate::{calls, image, tick};
use calls_seen::Step;
use pairs::{unreachable, ANSWERS, CALLS};
use std::io::{self, Write};

/// Replay files: the seeds of each profile, and the records of each file.
const SEEDS: u64 = 60;
const RECORDS: u32 = 600;
/// The file of cases.
const CASES_SEED: u64 = 1;
const CASES: u32 = 10_000;
/// How many ticks of an advance are looked at one by one.
const TICKS_LOOKED_AT: u32 = 40;

pub struct Coverage {
    pairs: [[u64; ANSWERS as usize]; CALLS as usize],
    calls_seen: Vec<u64>,
    ticks_seen: Vec<u64>,
}

/// Runs the fixed seeds.
pub fn run() -> Coverage {
    let mut coverage = Coverage::new();
    for profile in &Profile::ALL {
        for seed in 1..=SEEDS {
            coverage.run_file(&generate::file(*profile, seed, RECORDS));
        }
    }
    coverage.run_cases();
    coverage
}

impl Coverage {
    pub fn new() -> Coverage {
        Coverage {
            pairs: [[0; ANSWERS as usize]; CALLS as usize],
            calls_seen: vec![0; calls_seen::SITUATIONS.len()],
            ticks_seen: vec![0; ticks_seen::SITUATIONS.len()],
        }
    }

    /// Counts a pair; a call that isn't in the list counts as call 0.
    pub fn count(&mut self, call: u32, answer: u32) {
        let call = if call > LAST { 0 } else { call };
        self.pairs[call as usize][answer as usize] += 1;
    }

    /// Replays a file up to its end or its bad record, and counts everything.
    pub fn run_file(&mut self, file: &[u8]) {
        let mut table = Table::fresh();
        for request in file.chunks(RECORD).map_while(decode) {
            let before = table.clone();
            let report = calls::call(&mut table, &request);
            self.count(request.call, report.answer);
            self.see_call(&Step {
                before: &before,
                request: &request,
                report: &report,
                after: &table,
            });
            if request.call == ADVANCE && report.answer == answer::DONE {
                self.see_ticks(&before, request.a);
            }
        }
    }

    fn see_call(&mut self, step: &Step) {
        for (count, (_, holds)) in self.calls_seen.iter_mut().zip(calls_seen::SITUATIONS) {
            *count += u64::from(holds(step));
        }
    }

    /// Goes through the first ticks of an advance on a copy.
    fn see_ticks(&mut self, table: &Table, ticks: u32) {
        let mut before = table.clone();
        for _ in 0..ticks.min(TICKS_LOOKED_AT) {
            let mut after = before.clone();
            tick::tick(&mut after);
            for (count, (_, holds)) in self.ticks_seen.iter_mut().zip(ticks_seen::SITUATIONS) {
                *count += u64::from(holds(&before, &after));
            }
            before = after;
        }
    }

    /// Calls on images, about half of which aren't sound.
    fn run_cases(&mut self) {
        let mut maker = Maker::new(CASES_SEED);
        for _ in 0..CASES {
            let (mut image, request) = maker.case();
            let report = image::call(&mut image, &request);
            self.count(request.call, report.answer);
        }
    }

    fn pairs_where(&self, test: impl Fn(u64, bool) -> bool) -> Vec<(u32, u32)> {
        pairs::all()
            .filter(|pair| test(self.of(*pair), unreachable(pair.0, pair.1).is_none()))
            .collect()
    }

    fn of(&self, (call, answer): (u32, u32)) -> u64 {
        self.pairs[call as usize][answer as usize]
    }

    /// The pairs that can occur and haven't.
    pub fn missing_pairs(&self) -> Vec<(u32, u32)> {
        self.pairs_where(|count, reachable| count == 0 && reachable)
    }

    /// The pairs that can't occur and have.
    pub fn impossible_pairs(&self) -> Vec<(u32, u32)> {
        self.pairs_where(|count, reachable| count > 0 && !reachable)
    }

    /// Every situation with its count.
    fn situations(&self) -> Vec<(&'static str, u64)> {
        let of_calls = calls_seen::SITUATIONS
            .iter()
            .map(|situation| situation.0)
            .zip(self.calls_seen.iter().copied());
        let of_ticks = ticks_seen::SITUATIONS
            .iter()
            .map(|situation| situation.0)
            .zip(self.ticks_seen.iter().copied());
        of_calls.chain(of_ticks).collect()
    }

    pub fn missing_situations(&self) -> Vec<&'static str> {
        self.situations()
            .into_iter()
            .filter(|(_, count)| *count == 0)
            .map(|(name, _)| name)
            .collect()
    }

    /// Whether all was reached that can be, and nothing else.
    pub fn complete(&self) -> bool {
        self.missing_pairs().is_empty() && self.impossible_pairs().is_empty() && self.missing_situations().is_empty()
    }

    /// The whole report.
    pub fn write(&self, output: &mut dyn Write) -> io::Result<()> {
        self.write_counts(output)?;
        self.write_unreachable(output)?;
        writeln!(output, "\nsituations")?;
        for (name, count) in self.situations() {
            writeln!(output, "{:>9}  {}", count, name)?;
        }
        self.write_verdict(output)
    }

    /// A row per call; a pair that can't occur is a dash.
    fn write_counts(&self, output: &mut dyn Write) -> io::Result<()> {
        write!(output, "call\\answer")?;
        for answer in 0..ANSWERS {
            write!(output, "{:>9}", answer)?;
        }
        for call in 0..CALLS {
            write!(output, "\n{:>11}", name_of(call))?;
            for answer in 0..ANSWERS {
                match (self.of((call, answer)), unreachable(call, answer)) {
                    (0, Some(_)) => write!(output, "{:>9}", "-")?,
                    (count, _) => write!(output, "{:>9}", count)?,
                }
            }
        }
        writeln!(output)
    }

    /// The families of pairs that can't occur: an answer, a reason, and the calls.
    fn write_unreachable(&self, output: &mut dyn Write) -> io::Result<()> {
        writeln!(output, "\npairs that can't occur")?;
        let impossible = |answer: u32| move |call: u32| unreachable(call, answer).map(|reason| (call, reason));
        for answer in 0..ANSWERS {
            let mut families: Vec<(&str, Vec<String>)> = Vec::new();
            for (call, reason) in (0..CALLS).filter_map(impossible(answer)) {
                match families.iter_mut().find(|(known, _)| *known == reason) {
                    Some((_, names)) => names.push(name_of(call)),
                    None => families.push((reason, vec![name_of(call)])),
                }
            }
            for (reason, names) in families {
                writeln!(output, "  answer {} of {}: {}", answer, names.join(" "), reason)?;
            }
        }
        Ok(())
    }

    fn write_verdict(&self, output: &mut dyn Write) -> io::Result<()> {
        let missing = self.missing_pairs();
        writeln!(output)?;
        for (call, answer) in &missing {
            writeln!(output, "not reached: call {} with answer {}", call, answer)?;
        }
        for (call, answer) in self.impossible_pairs() {
            writeln!(
                output,
                "reached although held impossible: call {} with answer {}",
                call, answer
            )?;
        }
        for name in self.missing_situations() {
            writeln!(output, "not reached: {}", name)?;
        }
        let reachable = self.pairs_where(|_, reachable| reachable).len();
        writeln!(
            output,
            "{} of {} pairs that can occur are reached",
            reachable - missing.len(),
            reachable
        )
    }
}

/// How a call is named in the report.
fn name_of(call: u32) -> String {
    if call == 0 {
        "others".to_string()
    } else {
        call.to_string()
    }
}

impl Default for Coverage {
    fn default() -> Coverage {
        Coverage::new()
    }
}

#[cfg(test)]
mod tests {
    use super::*;
    use crate::table::Request;

    #[test]
    fn calls_beyond_the_list_count_as_others() {
        let mut coverage = Coverage::new();
        for call in [0, LAST + 1, 255, 256 + 1, u32::MAX] {
            let report = calls::call(
                &mut Table::fresh(),
                &Request {
                    call,
                    ..Request::default()
                },
            );
            coverage.count(call, report.answer);
        }
        assert_eq!(coverage.of((0, answer::NO_SUCH_CALL)), 5);
    }

    #[test]
    fn a_pair_held_impossible_is_told() {
        let mut coverage = Coverage::new();
        coverage.count(ADVANCE, answer::FULL);
        assert_eq!(coverage.impossible_pairs(), [(ADVANCE, answer::FULL)]);
        assert!(!coverage.complete());
        assert_eq!(coverage.missing_pairs(), coverage.pairs_where(|_, reachable| reachable));
    }
}
