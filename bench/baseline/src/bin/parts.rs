//! Times the parts of judging, each apart from the others, as bench/parts does with the product: the same work on the same
//! input, printed in the same lines. The last part has no counterpart in the product: the histories run with a marking of the
//! row before each entry.

use baseline::batch::Batch;
use baseline::case::Case;
use baseline::conditions::first_failing;
use baseline::lines::{decode, Lines, RECORD};
use baseline::marking::{Marking, State};
use baseline::records::CaseRecord;
use baseline::stepwise;
use std::hint::black_box;
use std::io::{self, BufReader};
use std::time::{Duration, Instant};

/// How many lines are held.
const HELD: usize = 100;

/// Of so many rounds the shortest counts.
const ROUNDS: usize = 60;

/// A round takes at least so long.
const ROUND: Duration = Duration::from_millis(2);

/// Times a part over so many lines or cases, and prints its line. A pass takes the part once for each and adds something of
/// each answer.
fn time(name: &str, count: usize, mut pass: impl FnMut(u64) -> u64) {
    let once = pass(0);
    let mut sum = 0;
    let mut round = |passes: u64| {
        let start = Instant::now();
        for _ in 0..passes {
            sum = pass(black_box(sum));
        }
        start.elapsed()
    };
    let mut passes = 1;
    while round(passes) < ROUND {
        passes *= 2;
    }
    let best = (0..ROUNDS).map(|_| round(passes)).min().unwrap_or_default();
    black_box(sum);
    let taken = passes as f64 * count as f64;
    println!("{name} {:.1} {once}", best.as_nanos() as f64 / taken);
}

/// For each of these, a number of its answer, added to what stands there.
fn sum_of<T>(sum: u64, items: &[T], mut answer: impl FnMut(&T) -> u64) -> u64 {
    items
        .iter()
        .fold(sum, |sum, item| sum.wrapping_add(answer(item)))
}

fn entry_count(line: &[u8], buffer: &mut [u8; RECORD]) -> u64 {
    let record = decode(line, buffer).and_then(CaseRecord::read);
    record.map_or(0, |record| record.entries.len() as u64)
}

/// Loads the case of a line and tells what it offers; a refused one is opened.
fn load(batch: &Batch, case: &mut Case, line: &[u8], buffer: &mut [u8; RECORD]) -> u64 {
    let loaded = decode(line, buffer)
        .and_then(CaseRecord::read)
        .is_some_and(|record| case.run(&batch.schema, record.entries).is_ok());
    if !loaded {
        case.open(&batch.schema);
    }
    let offered = case.activated(&batch.schema) & batch.schema.activities;
    u64::from(offered.count_ones()) + u64::from(loaded)
}

fn activated(marking: &Marking) -> u64 {
    let is_activated = |state: &&Option<State>| **state == Some(State::Activated);
    marking.states.iter().filter(is_activated).count() as u64
}

fn told(failing: Option<(usize, u8)>) -> u64 {
    failing.map_or(0, |(place, id)| place as u64 + u64::from(id) + 1)
}

/// The cases that run on the schema and are not finished then, with their histories.
fn running_cases(batch: &Batch, lines: &[Vec<u8>]) -> Vec<(Vec<[u8; 3]>, Case)> {
    let mut cases = Vec::new();
    let mut buffer = [0; RECORD];
    for line in lines {
        let Some(record) = decode(line, &mut buffer).and_then(CaseRecord::read) else {
            continue;
        };
        let mut case = Case::default();
        if case.run(&batch.schema, record.entries).is_ok() && !case.is_finished() {
            cases.push((record.entries.to_vec(), case));
        }
    }
    cases
}

fn time_all(batch: &Batch, lines: &[Vec<u8>]) {
    let (histories, cases): (Vec<_>, Vec<_>) = running_cases(batch, lines).into_iter().unzip();
    let mut case = Case::default();
    let mut marking = Marking::default();
    let mut buffer = [0; RECORD];
    time("read", lines.len(), |sum| {
        sum_of(sum, lines, |line| entry_count(line, &mut buffer))
    });
    time("load", lines.len(), |sum| {
        sum_of(sum, lines, |line| load(batch, &mut case, line, &mut buffer))
    });
    time("run", cases.len(), |sum| {
        sum_of(sum, &histories, |history| {
            u64::from(case.run(&batch.schema, history).is_ok())
        })
    });
    time("mark", cases.len(), |sum| {
        sum_of(sum, &cases, |case| {
            marking.mark(&batch.schema, &case.facts);
            activated(&marking)
        })
    });
    time("look", cases.len(), |sum| {
        sum_of(sum, &cases, |case| {
            told(first_failing(&batch.plan.conditions, case))
        })
    });
    time("replay", cases.len(), |sum| {
        sum_of(sum, &histories, |history| {
            u64::from(case.run(&batch.plan.changed, history).is_ok())
        })
    });
    let mut facts = case.facts.clone();
    time("stepwise", cases.len(), |sum| {
        sum_of(sum, &histories, |history| {
            u64::from(stepwise::run(&batch.schema, &mut facts, &mut marking, history).is_ok())
        })
    });
}

fn main() -> io::Result<()> {
    let mut input = Lines::new(BufReader::new(io::stdin().lock()));
    let mut lines = Vec::with_capacity(HELD);
    let mut next = || input.next_line().map(|line| line.map(<[u8]>::to_vec));
    let (Some(schema), Some(plan)) = (next()?, next()?) else {
        return Ok(());
    };
    while let Some(line) = next()? {
        lines.push(line);
        if lines.len() == HELD {
            break;
        }
    }
    if let Ok(batch) = Batch::read(&schema, &plan) {
        time_all(&batch, &lines);
    }
    Ok(())
}
