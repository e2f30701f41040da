//! The batches whose verdicts are known: a schema line, a plan line, and case lines with the verdict under each, up to a line
//! `#`.

use baseline::batch::{Batch, Judge};
use baseline::case::Case;
use baseline::lines::{decode, RECORD};
use baseline::marking::{Marking, State};
use baseline::records::CaseRecord;
use baseline::schema::IDS;
use baseline::stepwise;
use baseline::verdict::{Refusal, Verdict};

const BATCHES: &[u8] = include_bytes!("../../../crates/judged_batches/stdin");

fn judge(batch: &Result<Batch, Refusal>, line: &[u8]) -> Verdict {
    match batch {
        Ok(batch) => Judge::new(batch).judge(line),
        Err(refusal) => Verdict {
            case: 0,
            refusal: Some(*refusal),
        },
    }
}

/// Both ways to run a history stop at the same entry, and end in the same marking.
fn compare_runs(batch: &Batch, case: &mut Case, line: &[u8]) {
    let mut buffer = [0; RECORD];
    let Some(record) = decode(line, &mut buffer).and_then(CaseRecord::read) else {
        return;
    };
    let mut facts = case.facts.clone();
    let mut marking = Marking::default();
    for schema in [&batch.schema, &batch.plan.changed] {
        let ran = case.run(schema, record.entries);
        assert_eq!(
            ran,
            stepwise::run(schema, &mut facts, &mut marking, record.entries)
        );
        marking.mark(schema, &case.facts);
        let ids_in = |state| {
            let is_in = |&id: &usize| marking.states[id] == Some(state);
            (0..IDS).filter(is_in).fold(0, |ids, id| ids | 1 << id)
        };
        assert_eq!(case.activated(schema), ids_in(State::Activated));
        assert_eq!(case.running(), ids_in(State::Running));
        assert_eq!(case.skipped(), ids_in(State::Skipped));
        assert_eq!(case.facts.done, ids_in(State::Completed));
        assert_eq!(case.is_finished(), marking.finished);
    }
}

/// A move is refused for a change exactly if the history does not run on the changed schema.
fn compare_moves(batch: &Batch, case: &mut Case, line: &[u8], verdict: Verdict) {
    let number = verdict.refusal.map_or(0, |refusal| refusal.number);
    if number == 0 || number == 35 {
        let mut buffer = [0; RECORD];
        let record = decode(line, &mut buffer)
            .and_then(CaseRecord::read)
            .unwrap();
        assert_eq!(
            case.run(&batch.plan.changed, record.entries).is_ok(),
            number == 0
        );
    }
}

#[test]
fn verdicts_are_as_expected() {
    let mut case = Case::default();
    let mut told = 0;
    let mut lines = BATCHES
        .strip_suffix(b"\n")
        .unwrap_or(BATCHES)
        .split(|&byte| byte == b'\n');
    while let (Some(schema), Some(plan)) = (lines.next(), lines.next()) {
        let batch = Batch::read(schema, plan);
        while let Some(line) = lines.next().filter(|line| line != b"#") {
            let expected = lines.next().expect("a verdict stands under each case");
            let verdict = judge(&batch, line);
            assert_eq!(
                String::from_utf8_lossy(&verdict.line()[..20]),
                String::from_utf8_lossy(expected),
                "case {told}: {}",
                String::from_utf8_lossy(line)
            );
            if let Ok(batch) = &batch {
                compare_runs(batch, &mut case, line);
                compare_moves(batch, &mut case, line, verdict);
            }
            told += 1;
        }
    }
    assert!(told > 1000, "only {told} verdicts");
}
