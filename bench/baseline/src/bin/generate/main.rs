//! Writes a batch of a kind: a schema line, a plan line and case lines. The same seed gives the same batch.
//!
//! `generate KIND [SEED [CASES]]`; the verdicts are counted on standard error.

mod histories;
mod kinds;
mod plans;
mod random;
mod rows;

use baseline::batch::{Batch, Judge};
use baseline::case::Case;
use baseline::lines::encode;
use baseline::schema::Schema;
use histories::{history, History};
use kinds::{Kind, KINDS};
use random::Random;
use std::collections::BTreeMap;
use std::io::{self, BufWriter, Write};

/// By how many cases a plan is tried.
const TRIED: usize = 100;

/// Of a hundred lines so many are damaged.
const DAMAGED: usize = 2;

fn line(record: &[u8]) -> Vec<u8> {
    let mut line = Vec::with_capacity(2 * record.len());
    encode(record, &mut line);
    line
}

fn plan_line(changes: &[[u8; 4]]) -> Vec<u8> {
    let mut record = vec![2, changes.len() as u8];
    record.extend(changes.iter().flatten());
    line(&record)
}

fn case_line(number: usize, history: &History) -> Vec<u8> {
    let mut record = vec![3];
    record.extend((number as u32).to_be_bytes());
    record.extend((history.len() as u16).to_be_bytes());
    record.extend(history.iter().flatten());
    line(&record)
}

/// Damages a line so that the reader or the run refuses it.
fn damage(line: &mut Vec<u8>, random: &mut Random) {
    match random.below(4) {
        0 => line.truncate(line.len() - 1),
        1 => line[3] = b'g',
        2 => line.extend(b"0101FF"),
        // the kind of the first entry, if there is one
        _ => {
            if let Some(kind) = line.get_mut(15) {
                *kind = b'9';
            }
        }
    }
}

/// A case that is not finished, since a finished one is not moved whatever the plan says.
fn unfinished(kind: &Kind, schema: &Schema, random: &mut Random) -> History {
    let mut case = Case::default();
    loop {
        let history = history(kind, schema, random);
        case.run(schema, &history)
            .expect("it was made on the schema");
        if !case.is_finished() {
            return history;
        }
    }
}

fn write_batch(kind: &Kind, cases: usize, random: &mut Random) -> io::Result<()> {
    let schema = rows::schema(kind, random);
    let tried: Vec<History> = (0..TRIED)
        .map(|_| unfinished(kind, &schema, random))
        .collect();
    let plan = plan_line(&plans::plan(kind, &schema, &tried, random));
    let schema_line = line(&schema.record());
    let batch =
        Batch::read(&schema_line, &plan).expect("the batch was made of a schema and a plan of it");
    let mut out = BufWriter::new(io::stdout().lock());
    let mut verdicts = BTreeMap::new();
    let mut judge = Judge::new(&batch);
    out.write_all(&[&schema_line[..], b"\n", &plan, b"\n"].concat())?;
    for number in 0..cases {
        let history = if random.percent(3) {
            history(kind, &schema, random)
        } else {
            unfinished(kind, &schema, random)
        };
        let mut line = case_line(number, &history);
        if random.percent(DAMAGED) {
            damage(&mut line, random);
        }
        let refusal = judge.judge(&line).refusal;
        *verdicts
            .entry(refusal.map_or(0, |refusal| refusal.number))
            .or_insert(0) += 1;
        line.push(b'\n');
        out.write_all(&line)?;
    }
    out.flush()?;
    eprintln!(
        "{}: {} elements, {} edges, {} changes; verdicts by number: {verdicts:?}",
        kind.name,
        schema.row.len(),
        schema.edges.len(),
        kind.changes
    );
    Ok(())
}

fn main() -> io::Result<()> {
    let mut arguments = std::env::args().skip(1);
    let name = arguments.next().unwrap_or_default();
    let Some(kind) = KINDS.iter().find(|kind| kind.name == name) else {
        let names: Vec<&str> = KINDS.iter().map(|kind| kind.name).collect();
        eprintln!("usage: generate {} [SEED [CASES]]", names.join("|"));
        std::process::exit(2);
    };
    let mut number = |default: u64| {
        arguments
            .next()
            .map_or(default, |word| word.parse().expect("a number"))
    };
    let seed = number(1);
    let cases = number(kind.cases as u64) as usize;
    write_batch(kind, cases, &mut Random::new(seed))
}
