//! Random histories that run on a schema.

use crate::kinds::Kind;
use crate::random::Random;
use baseline::case::{Case, CHOOSE, END, LEAVE, NO_BRANCH, START};
use baseline::schema::{has, Schema};

pub type History = Vec<[u8; 3]>;

/// A history of a length of the kind, or less if the case is finished by then.
pub fn history(kind: &Kind, schema: &Schema, random: &mut Random) -> History {
    let length = random.between(kind.entries);
    let mut case = Case::default();
    let mut history = History::with_capacity(length);
    case.open(schema);
    while history.len() < length {
        let Some(entry) = next_entry(schema, &case, random) else {
            break;
        };
        case.step(schema, history.len() as u16, entry)
            .expect("what may be done is a step");
        history.push(entry);
    }
    history
}

/// An entry that the case may go on with, if there is one.
fn next_entry(schema: &Schema, case: &Case, random: &mut Random) -> Option<[u8; 3]> {
    let choices = case.activated(schema) | case.running();
    if choices == 0 {
        return None;
    }
    let id = random.id(choices);
    if has(schema.decisions, id) {
        let branches = schema.block_from(schema.place(id)).branches;
        return Some([CHOOSE, id, random.below(branches as usize) as u8]);
    }
    let step = match (has(schema.tests, id), has(case.running(), id)) {
        (true, _) => LEAVE,
        (false, true) => END,
        (false, false) => START,
    };
    Some([step, id, NO_BRANCH])
}
