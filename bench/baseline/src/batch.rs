//! A schema and a plan of it, by which cases are judged.
//!
//! A case is always loaded on the schema that the plan was made of, and its line has at most 128 entries that are steps, so
//! neither a foreign base nor a full log can occur here.

use crate::case::Case;
use crate::conditions::{first_failing, Condition};
use crate::draft::{Draft, Plan};
use crate::lines::{decode, RECORD};
use crate::records::{read_plan, CaseRecord, SchemaRecord};
use crate::schema::Schema;
use crate::verdict::{Refusal, Verdict};

pub struct Batch {
    pub schema: Schema,
    pub plan: Plan,
}

impl Batch {
    pub fn read(schema: &[u8], plan: &[u8]) -> Result<Batch, Refusal> {
        let schema = read_schema(schema)?;
        let plan = read_changes(&schema, plan)?;
        Ok(Batch { schema, plan })
    }

    /// Why a case that runs on the schema is not moved, told by looking at it.
    pub fn move_refusal(&self, case: &Case) -> Option<Refusal> {
        Batch::refusal_of_move(&self.plan.conditions, case)
    }

    pub fn refusal_of_move(conditions: &[Condition], case: &Case) -> Option<Refusal> {
        if case.is_finished() {
            return Some(Refusal::new(33, 6));
        }
        first_failing(conditions, case).map(|(change, id)| Refusal::at(35, 6, change, id))
    }
}

/// What cases are judged in, one after the other.
pub struct Judge<'a> {
    batch: &'a Batch,
    case: Case,
    record: [u8; RECORD],
}

impl<'a> Judge<'a> {
    pub fn new(batch: &'a Batch) -> Self {
        Judge {
            batch,
            case: Case::default(),
            record: [0; RECORD],
        }
    }

    /// Judges the case that a line writes.
    pub fn judge(&mut self, line: &[u8]) -> Verdict {
        let Some(record) = decode(line, &mut self.record).and_then(CaseRecord::read) else {
            return Verdict {
                case: 0,
                refusal: Some(Refusal::new(1, 5)),
            };
        };
        let refusal = match self.case.run(&self.batch.schema, record.entries) {
            Ok(()) => self.batch.move_refusal(&self.case),
            Err((place, stop)) => Some(Refusal::at(
                stop.number(),
                6,
                place,
                record.entries[place][1],
            )),
        };
        Verdict {
            case: record.number,
            refusal,
        }
    }
}

pub fn read_schema(line: &[u8]) -> Result<Schema, Refusal> {
    let mut buffer = [0; RECORD];
    let record = decode(line, &mut buffer)
        .and_then(SchemaRecord::read)
        .ok_or(Refusal::new(1, 1))?;
    Schema::read(&record)
}

fn read_changes(schema: &Schema, line: &[u8]) -> Result<Plan, Refusal> {
    let mut buffer = [0; RECORD];
    let changes = decode(line, &mut buffer)
        .and_then(read_plan)
        .ok_or(Refusal::new(1, 3))?;
    let mut draft = Draft::begin(schema);
    for &change in changes {
        draft.add(change)?;
    }
    Ok(draft.release())
}
