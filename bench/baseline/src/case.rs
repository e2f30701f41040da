//! Cases that run.
//!
//! A step does not mark the row: the case keeps the nodes that the work has reached and those that it will never reach, and a
//! step moves these sets on from its node. Within a run a signal that is true or false stays so, since facts are only added
//! and each step was allowed; so each gap is passed at most once in a run, and a run costs entries + elements, not entries ×
//! elements.

use crate::layout::{Block, BlockKind};
use crate::schema::{has, Element, Schema, IDS, MOST_ELEMENTS};

pub const START: u8 = 1;
pub const END: u8 = 2;
pub const CHOOSE: u8 = 3;
pub const LEAVE: u8 = 4;

pub const NO_BRANCH: u8 = 0xFF;

/// What happened to each node.
#[derive(Clone)]
pub struct Facts {
    /// The activities that were begun; they stay in the set when they are ended.
    pub begun: u64,
    /// The activities ended, the decisions decided and the tests left.
    pub done: u64,
    /// The branch of each decision that is done.
    pub decided: [u8; IDS],
}

#[derive(Clone)]
pub struct Case {
    pub facts: Facts,
    /// Where in the history each node that was begun was begun, and each that is done was done.
    pub begun_at: [u16; IDS],
    pub done_at: [u16; IDS],
    /// The nodes whose own signal is true.
    reached: u64,
    /// The nodes whose own signal is false.
    skipped: u64,
    finished: bool,
    /// How many branches of each AND block have ended true.
    ended_branches: [u8; MOST_ELEMENTS / 2],
}

impl Default for Case {
    fn default() -> Self {
        Case {
            facts: Facts {
                begun: 0,
                done: 0,
                decided: [0; IDS],
            },
            begun_at: [0; IDS],
            done_at: [0; IDS],
            reached: 0,
            skipped: 0,
            finished: false,
            ended_branches: [0; MOST_ELEMENTS / 2],
        }
    }
}

/// Why an entry is no step.
#[derive(Clone, Copy, PartialEq, Eq, Debug)]
pub enum Stop {
    /// No such node or branch.
    Missing,
    /// The node is in another state.
    State,
}

impl Stop {
    pub fn number(self) -> u8 {
        match self {
            Stop::Missing => 30,
            Stop::State => 31,
        }
    }
}

impl Case {
    /// Begins anew, without any fact. Tables that a set says the meaning of keep what they held.
    pub fn open(&mut self, schema: &Schema) {
        self.facts.begun = 0;
        self.facts.done = 0;
        self.reached = 0;
        self.skipped = 0;
        self.finished = false;
        self.ended_branches[..schema.layout.blocks.len()].fill(0);
        self.reach(schema, 0);
    }

    /// Runs a history from no facts; the first entry that is no step is told with its place.
    pub fn run(&mut self, schema: &Schema, entries: &[[u8; 3]]) -> Result<(), (usize, Stop)> {
        self.open(schema);
        for (place, &entry) in entries.iter().enumerate() {
            self.step(schema, place as u16, entry)
                .map_err(|stop| (place, stop))?;
        }
        Ok(())
    }

    pub fn is_finished(&self) -> bool {
        self.finished
    }

    /// The nodes that the work can go on with: those that are Activated.
    pub fn activated(&self, schema: &Schema) -> u64 {
        let settled = self.facts.done | self.skipped;
        let mut activated = self.reached & !self.facts.begun & !self.facts.done;
        for &[source, target] in &schema.edges {
            if !has(settled, source) {
                activated &= !(1 << target);
            }
        }
        activated
    }

    pub fn running(&self) -> u64 {
        self.facts.begun & !self.facts.done
    }

    pub fn skipped(&self) -> u64 {
        self.skipped
    }

    /// Takes the step of an entry that stands at this place of the history.
    pub fn step(&mut self, schema: &Schema, place: u16, entry: [u8; 3]) -> Result<(), Stop> {
        let [kind, id, branch] = entry;
        match kind {
            START if has(schema.activities, id) && branch == NO_BRANCH => {
                let settled = self.facts.done | self.skipped;
                let may_begin = self.is_open(id)
                    && !has(self.facts.begun, id)
                    && schema.sources[id as usize] & !settled == 0;
                if !may_begin {
                    return Err(Stop::State);
                }
                self.facts.begun |= 1 << id;
                self.begun_at[id as usize] = place;
                Ok(())
            }
            END if has(schema.activities, id) && branch == NO_BRANCH => {
                if !has(self.running(), id) {
                    return Err(Stop::State);
                }
                self.note_done(id, place);
                self.reach(schema, schema.place(id) + 1);
                Ok(())
            }
            CHOOSE if has(schema.decisions, id) => {
                let block = schema.block_from(schema.place(id));
                if branch >= block.branches {
                    return Err(Stop::Missing);
                }
                if !self.is_open(id) {
                    return Err(Stop::State);
                }
                self.note_done(id, place);
                self.facts.decided[id as usize] = branch;
                self.skip_others(block, branch);
                self.reach(schema, block.first_gap(branch));
                Ok(())
            }
            LEAVE if has(schema.tests, id) && branch == NO_BRANCH => {
                if !self.is_open(id) {
                    return Err(Stop::State);
                }
                self.note_done(id, place);
                self.reach(schema, schema.place(id) + 1);
                Ok(())
            }
            _ => Err(Stop::Missing),
        }
    }

    /// Whether the work has reached a node and is not done with it.
    fn is_open(&self, id: u8) -> bool {
        has(self.reached & !self.facts.done, id)
    }

    fn note_done(&mut self, id: u8, place: u16) {
        self.facts.done |= 1 << id;
        self.done_at[id as usize] = place;
    }

    fn skip_others(&mut self, block: &Block, decided: u8) {
        for (branch, nodes) in block.nodes[..block.branches as usize].iter().enumerate() {
            if branch != decided as usize {
                self.skipped |= nodes;
            }
        }
    }

    /// Lets the signal of a gap be true, and of all gaps that this makes true.
    fn reach(&mut self, schema: &Schema, mut gap: usize) {
        while let Some(element) = schema.row.get(gap) {
            match *element {
                Element::Activity(id) | Element::XorSplit(id) | Element::LoopEnd(id) => {
                    self.reached |= 1 << id;
                    return;
                }
                Element::LoopStart => gap += 1,
                Element::AndSplit => {
                    let block = schema.block_from(gap);
                    for branch in 1..block.branches {
                        self.reach(schema, block.first_gap(branch));
                    }
                    gap = block.first_gap(0);
                }
                Element::Bar | Element::AndJoin | Element::XorJoin => {
                    let block = schema.block_around(gap);
                    if block.kind == BlockKind::And {
                        let ended =
                            &mut self.ended_branches[schema.layout.spots[gap].block as usize];
                        *ended += 1;
                        if *ended < block.branches {
                            return;
                        }
                    }
                    gap = block.end() + 1;
                }
            }
        }
        self.finished = true;
    }
}
