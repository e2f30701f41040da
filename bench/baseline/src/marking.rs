//! The states of all nodes, from the facts alone, in one pass over the row.

use crate::case::Facts;
use crate::layout::{Block, BlockKind};
use crate::schema::{has, Element, Ids, Schema, IDS, MOST_ELEMENTS};

#[derive(Clone, Copy, PartialEq, Eq, Debug)]
pub enum State {
    NotActivated,
    Activated,
    Running,
    Completed,
    Skipped,
}

#[derive(Clone, Copy, PartialEq, Eq, Debug)]
enum Signal {
    None,
    True,
    False,
}

pub struct Marking {
    /// The state of each node that the schema has.
    pub states: [Option<State>; IDS],
    pub finished: bool,
    signals: [Signal; MOST_ELEMENTS + 1],
}

impl Default for Marking {
    fn default() -> Self {
        Marking {
            states: [None; IDS],
            finished: false,
            signals: [Signal::None; MOST_ELEMENTS + 1],
        }
    }
}

impl Marking {
    /// Marks a schema by the facts of a case.
    pub fn mark(&mut self, schema: &Schema, facts: &Facts) {
        self.states = [None; IDS];
        self.pass(schema, facts);
        for (place, element) in schema.row.iter().enumerate() {
            if let Some(id) = element.id() {
                self.states[id as usize] = Some(state(facts, id, self.signals[place]));
            }
        }
        for &[source, target] in &schema.edges {
            self.let_wait(source, target);
        }
        self.finished = self.signals[schema.row.len()] == Signal::True;
    }

    /// The state of one node of the schema; the others are not marked.
    pub fn state(&mut self, schema: &Schema, facts: &Facts, id: u8) -> State {
        self.pass(schema, facts);
        let own = |id: u8| self.signals[schema.place(id)];
        let is_settled = |id: u8| own(id) == Signal::False || has(facts.done, id);
        match state(facts, id, own(id)) {
            State::Activated if !Ids(schema.sources[id as usize]).all(is_settled) => {
                State::NotActivated
            }
            state => state,
        }
    }

    fn pass(&mut self, schema: &Schema, facts: &Facts) {
        self.signals[0] = Signal::True;
        for (place, element) in schema.row.iter().enumerate() {
            self.signals[place + 1] = self.behind(schema, facts, place, *element);
        }
    }

    /// An edge's target waits while its source is neither Completed nor Skipped.
    fn let_wait(&mut self, source: u8, target: u8) {
        let settled = matches!(
            self.states[source as usize],
            Some(State::Completed | State::Skipped)
        );
        let target = &mut self.states[target as usize];
        if !settled && *target == Some(State::Activated) {
            *target = Some(State::NotActivated);
        }
    }

    fn behind(&self, schema: &Schema, facts: &Facts, place: usize, element: Element) -> Signal {
        let before = self.signals[place];
        match element {
            Element::Activity(id) | Element::LoopEnd(id) => {
                if before == Signal::False {
                    Signal::False
                } else if has(facts.done, id) {
                    Signal::True
                } else {
                    Signal::None
                }
            }
            Element::LoopStart | Element::AndSplit => before,
            Element::XorSplit(id) => branch_signal(facts, id, 0, before),
            Element::Bar => {
                let block = schema.block_around(place);
                let start = block.dividers[0] as usize;
                match schema.row[start] {
                    Element::XorSplit(id) => {
                        let branch = schema.layout.spots[place].branch + 1;
                        branch_signal(facts, id, branch, self.signals[start])
                    }
                    _ => self.signals[start],
                }
            }
            Element::AndJoin | Element::XorJoin => {
                self.behind_block(schema, facts, schema.block_around(place))
            }
        }
    }

    fn behind_block(&self, schema: &Schema, facts: &Facts, block: &Block) -> Signal {
        let start = block.dividers[0] as usize;
        if self.signals[start] == Signal::False {
            return Signal::False;
        }
        let ends = &block.dividers[1..=block.branches as usize];
        if block.kind == BlockKind::And {
            let all = ends
                .iter()
                .all(|&end| self.signals[end as usize] == Signal::True);
            return if all { Signal::True } else { Signal::None };
        }
        match schema.row[start] {
            Element::XorSplit(id) if has(facts.done, id) => {
                let end = ends[facts.decided[id as usize] as usize];
                self.signals[end as usize]
            }
            _ => Signal::None,
        }
    }
}

/// What a branch of a decision begins with.
fn branch_signal(facts: &Facts, decision: u8, branch: u8, before: Signal) -> Signal {
    if before == Signal::False {
        Signal::False
    } else if !has(facts.done, decision) {
        Signal::None
    } else if facts.decided[decision as usize] == branch {
        Signal::True
    } else {
        Signal::False
    }
}

/// The state of a node by its own signal, sync edges left aside.
fn state(facts: &Facts, id: u8, own: Signal) -> State {
    if own == Signal::False {
        State::Skipped
    } else if has(facts.done, id) {
        State::Completed
    } else if has(facts.begun, id) {
        State::Running
    } else if own == Signal::True {
        State::Activated
    } else {
        State::NotActivated
    }
}
