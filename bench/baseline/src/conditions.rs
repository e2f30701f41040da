//! What a change asks of a case that is to be moved.
//!
//! The tests rest on three things that hold for each case that came from a run: a node is Running or Completed exactly if it
//! has a fact, a gap is false exactly if a decision around it was decided for another branch, and then exactly one was.

use crate::case::Case;
use crate::layout::{BlockKind, TOP};
use crate::schema::{has, Element, Schema, MOST_ELEMENTS};

/// The decisions around a gap, each with the branch that holds the gap.
type Deciders = Box<[(u8, u8)]>;

pub enum Condition {
    /// The change may always be made.
    None,
    /// This activity must be neither Running nor Completed.
    Untouched(u8),
    /// None of the followers may be Running or Completed, or the gap must be false.
    Ahead { followers: u64, deciders: Deciders },
    /// The target waited for the source, or is still to come.
    InOrder {
        source: u8,
        target: u8,
        deciders: Deciders,
    },
}

impl Condition {
    /// Of an insert at a gap.
    pub fn ahead(schema: &Schema, gap: usize) -> Self {
        Condition::Ahead {
            followers: followers(schema)[gap],
            deciders: deciders(schema, gap),
        }
    }

    /// Of a new edge.
    pub fn in_order(schema: &Schema, source: u8, target: u8) -> Self {
        Condition::InOrder {
            source,
            target,
            deciders: deciders(schema, schema.place(source)),
        }
    }

    /// The node by which the change fails, if it does.
    pub fn failing(&self, case: &Case) -> Option<u8> {
        // what is done was begun, if it is an activity
        let touched = case.facts.begun | case.facts.done;
        match self {
            Condition::None => None,
            Condition::Untouched(activity) => has(touched, *activity).then_some(*activity),
            Condition::Ahead {
                followers,
                deciders,
            } => {
                let hit = followers & touched;
                let fails = hit != 0 && decided_against(case, deciders).is_none();
                fails.then(|| hit.trailing_zeros() as u8)
            }
            Condition::InOrder {
                source,
                target,
                deciders,
            } => {
                if !has(touched, *target) {
                    return None;
                }
                let settled = if has(case.facts.done, *source) {
                    Some(*source)
                } else {
                    decided_against(case, deciders)
                };
                let waited = settled.is_some_and(|node| {
                    case.done_at[node as usize] < case.begun_at[*target as usize]
                });
                (!waited).then_some(*target)
            }
        }
    }
}

/// The place and the node of the first change that fails.
pub fn first_failing(conditions: &[Condition], case: &Case) -> Option<(usize, u8)> {
    conditions
        .iter()
        .enumerate()
        .find_map(|(place, condition)| condition.failing(case).map(|id| (place, id)))
}

/// The decision that was decided for another branch than the one that is asked for.
fn decided_against(case: &Case, deciders: &Deciders) -> Option<u8> {
    let against = |&&(decision, branch): &&(u8, u8)| {
        has(case.facts.done, decision) && case.facts.decided[decision as usize] != branch
    };
    deciders.iter().find(against).map(|&(decision, _)| decision)
}

fn deciders(schema: &Schema, gap: usize) -> Deciders {
    let mut deciders = Vec::new();
    let mut spot = schema.layout.spots[gap];
    while spot.block != TOP {
        let block = &schema.layout.blocks[spot.block as usize];
        if let Element::XorSplit(decision) = schema.row[block.dividers[0] as usize] {
            deciders.push((decision, spot.branch));
        }
        spot = block.around;
    }
    // the outermost comes first
    deciders.reverse();
    deciders.into()
}

/// The nodes that come next at each gap, read from the row's end.
fn followers(schema: &Schema) -> [u64; MOST_ELEMENTS + 1] {
    let mut next = [0; MOST_ELEMENTS + 1];
    for (gap, element) in schema.row.iter().enumerate().rev() {
        next[gap] = match *element {
            Element::Activity(id) | Element::XorSplit(id) | Element::LoopEnd(id) => 1 << id,
            Element::LoopStart => next[gap + 1],
            Element::AndSplit => {
                let block = schema.block_from(gap);
                debug_assert_eq!(block.kind, BlockKind::And);
                (0..block.branches).fold(0, |all, branch| all | next[block.first_gap(branch)])
            }
            Element::Bar | Element::AndJoin | Element::XorJoin => {
                next[schema.block_around(gap).end() + 1]
            }
        };
    }
    next
}
