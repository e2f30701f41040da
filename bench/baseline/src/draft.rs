//! Drafts, which take changes one by one, and the plans that are released of them.

use crate::conditions::Condition;
use crate::edges;
use crate::schema::{has, Element, Schema, IDS, MOST_EDGES, MOST_ELEMENTS};
use crate::verdict::Refusal;

pub const MOST_CHANGES: usize = 16;

const LAYER: u8 = 4;
const UNUSED: u8 = 0xFF;

#[derive(Clone, Copy, PartialEq, Eq, Debug)]
pub enum Change {
    Drop { source: u8, target: u8 },
    Delete { activity: u8 },
    Insert { activity: u8, gap: u8 },
    InsertBeside { activity: u8, from: u8, to: u8 },
    Add { source: u8, target: u8 },
}

impl Change {
    /// The change of four bytes, if its kind is known, its ids are ids and its unused bytes unused.
    fn read([kind, a, b, c]: [u8; 4]) -> Option<Change> {
        let is_id = |byte: u8| (byte as usize) < IDS;
        let change = match (kind, b, c) {
            (1, _, UNUSED) if is_id(b) => Change::Drop {
                source: a,
                target: b,
            },
            (2, UNUSED, UNUSED) => Change::Delete { activity: a },
            (3, _, UNUSED) => Change::Insert {
                activity: a,
                gap: b,
            },
            (4, _, _) => Change::InsertBeside {
                activity: a,
                from: b,
                to: c,
            },
            (5, _, UNUSED) if is_id(b) => Change::Add {
                source: a,
                target: b,
            },
            _ => return None,
        };
        is_id(a).then_some(change)
    }

    fn takes_away(self) -> bool {
        matches!(self, Change::Drop { .. } | Change::Delete { .. })
    }

    /// The id of the activity that it puts in.
    fn new_id(self) -> Option<u8> {
        match self {
            Change::Insert { activity, .. } | Change::InsertBeside { activity, .. } => {
                Some(activity)
            }
            _ => None,
        }
    }

    /// How many elements and edges it puts in.
    fn growth(self) -> (usize, usize) {
        match self {
            Change::Drop { .. } | Change::Delete { .. } => (0, 0),
            Change::Insert { .. } => (1, 0),
            Change::InsertBeside { .. } => (4, 0),
            Change::Add { .. } => (0, 1),
        }
    }

    /// Whether what it speaks of is there.
    fn is_there(self, schema: &Schema) -> bool {
        let is_gap = |gap: u8| gap as usize <= schema.row.len();
        let spot = |gap: u8| schema.layout.spots[gap as usize];
        match self {
            Change::Drop { source, target } => schema.edges.contains(&[source, target]),
            Change::Delete { activity } => has(schema.activities, activity),
            Change::Insert { gap, .. } => is_gap(gap),
            Change::InsertBeside { from, to, .. } => {
                from < to && is_gap(to) && spot(from) == spot(to)
            }
            Change::Add { source, target } => {
                has(schema.activities, source) && has(schema.activities, target)
            }
        }
    }

    /// What it asks of a running case.
    fn condition(self, schema: &Schema) -> Condition {
        match self {
            Change::Drop { .. } => Condition::None,
            Change::Delete { activity } => Condition::Untouched(activity),
            Change::Insert { gap, .. } => Condition::ahead(schema, gap as usize),
            Change::InsertBeside { to, .. } => Condition::ahead(schema, to as usize),
            Change::Add { source, target } => Condition::in_order(schema, source, target),
        }
    }

    /// The schema that it leaves.
    fn apply(self, schema: &Schema) -> Schema {
        let mut row = schema.row.clone();
        let mut edges = schema.edges.clone();
        match self {
            Change::Drop { source, target } => edges.retain(|edge| *edge != [source, target]),
            Change::Delete { activity } => {
                row.remove(schema.place(activity));
                edges.retain(|edge| !edge.contains(&activity));
            }
            Change::Insert { activity, gap } => {
                row.insert(gap as usize, Element::Activity(activity))
            }
            Change::InsertBeside { activity, from, to } => {
                let beside = [Element::Bar, Element::Activity(activity), Element::AndJoin];
                row.splice(to as usize..to as usize, beside);
                row.insert(from as usize, Element::AndSplit);
            }
            Change::Add { source, target } => edges.push([source, target]),
        }
        let mut changed =
            Schema::of(schema.version, row).expect("an admitted change leaves blocks nested");
        for [source, target] in edges {
            changed.add_edge(source, target);
        }
        changed
    }
}

pub struct Draft {
    schema: Schema,
    /// The ids of the base and those put in since.
    taken: u64,
    conditions: Vec<Condition>,
    has_put_in: bool,
}

/// What a released draft gives.
pub struct Plan {
    pub changed: Schema,
    /// For each change.
    pub conditions: Vec<Condition>,
}

impl Draft {
    pub fn begin(base: &Schema) -> Draft {
        let mut schema =
            Schema::of(base.version, base.row.clone()).expect("the base has passed the checks");
        for &[source, target] in &base.edges {
            schema.add_edge(source, target);
        }
        Draft {
            taken: base.nodes(),
            schema,
            conditions: Vec::with_capacity(MOST_CHANGES),
            has_put_in: false,
        }
    }

    pub fn schema(&self) -> &Schema {
        &self.schema
    }

    /// Adds a change, or refuses it and is as before.
    pub fn add(&mut self, bytes: [u8; 4]) -> Result<(), Refusal> {
        let refuse = |number| Refusal::at(number, LAYER, self.conditions.len(), bytes[1]);
        let change = Change::read(bytes)
            .filter(|change| !(change.takes_away() && self.has_put_in))
            .ok_or_else(|| refuse(20))?;
        if !change.is_there(&self.schema) {
            return Err(refuse(22));
        }
        if change.new_id().is_some_and(|id| has(self.taken, id)) {
            return Err(refuse(23));
        }
        if !self.has_room(change) {
            return Err(refuse(24));
        }
        if let Change::Add { source, target } = change {
            if !edges::is_proper(&self.schema, source, target) {
                return Err(refuse(14));
            }
        }
        self.carry_out(change);
        Ok(())
    }

    fn has_room(&self, change: Change) -> bool {
        let (elements, edges) = change.growth();
        self.conditions.len() < MOST_CHANGES
            && self.schema.row.len() + elements <= MOST_ELEMENTS
            && self.schema.edges.len() + edges <= MOST_EDGES
    }

    fn carry_out(&mut self, change: Change) {
        self.conditions.push(change.condition(&self.schema));
        self.schema = change.apply(&self.schema);
        if let Some(id) = change.new_id() {
            self.taken |= 1 << id;
        }
        self.has_put_in |= !change.takes_away();
    }

    pub fn release(self) -> Plan {
        let mut changed = self.schema;
        changed.version = changed.version.saturating_add(1);
        Plan {
            changed,
            conditions: self.conditions,
        }
    }
}
