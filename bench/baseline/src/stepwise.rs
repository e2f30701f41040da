//! The run as the rules tell it: each entry is judged by the state of its node, from a marking of the whole row before it.
//! `judge` does not run cases so. It stands here to be timed, since it shows what of a difference comes from the way taken and
//! not from the code, and as a check on the way that `Case` takes.

use crate::case::{Facts, Stop, CHOOSE, END, LEAVE, NO_BRANCH, START};
use crate::marking::{Marking, State};
use crate::schema::{has, Schema};

/// Runs a history from no facts; the first entry that is no step is told with its place.
pub fn run(
    schema: &Schema,
    facts: &mut Facts,
    marking: &mut Marking,
    entries: &[[u8; 3]],
) -> Result<(), (usize, Stop)> {
    facts.begun = 0;
    facts.done = 0;
    for (place, &entry) in entries.iter().enumerate() {
        step(schema, facts, marking, entry).map_err(|stop| (place, stop))?;
    }
    Ok(())
}

fn step(
    schema: &Schema,
    facts: &mut Facts,
    marking: &mut Marking,
    [kind, id, branch]: [u8; 3],
) -> Result<(), Stop> {
    let (nodes, needed) = match kind {
        START => (schema.activities, State::Activated),
        END => (schema.activities, State::Running),
        CHOOSE => (schema.decisions, State::Activated),
        LEAVE => (schema.tests, State::Activated),
        _ => return Err(Stop::Missing),
    };
    if !has(nodes, id) || !fits(schema, kind, id, branch) {
        return Err(Stop::Missing);
    }
    if marking.state(schema, facts, id) != needed {
        return Err(Stop::State);
    }
    match kind {
        START => facts.begun |= 1 << id,
        _ => facts.done |= 1 << id,
    }
    if kind == CHOOSE {
        facts.decided[id as usize] = branch;
    }
    Ok(())
}

/// Whether the branch byte is as the step needs it.
fn fits(schema: &Schema, kind: u8, id: u8, branch: u8) -> bool {
    if kind == CHOOSE {
        branch < schema.block_from(schema.place(id)).branches
    } else {
        branch == NO_BRANCH
    }
}
