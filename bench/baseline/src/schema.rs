//! Schemas: the checks, and the tables of a schema that passed them.

use crate::edges;
use crate::layout::{Block, Layout};
use crate::records::SchemaRecord;
use crate::verdict::{Refusal, NO_ID};

pub const MOST_ELEMENTS: usize = 128;
pub const MOST_EDGES: usize = 32;
pub const IDS: usize = 64;

const LAYER: u8 = 2;

#[derive(Clone, Copy, PartialEq, Eq, Debug)]
pub enum Element {
    Activity(u8),
    AndSplit,
    Bar,
    AndJoin,
    XorSplit(u8),
    XorJoin,
    LoopStart,
    LoopEnd(u8),
}

impl Element {
    /// The element of two bytes, if the kind is known and the id is as the kind needs it.
    fn read([kind, id]: [u8; 2]) -> Option<Element> {
        let element = match kind {
            1 => Element::Activity(id),
            2 => Element::AndSplit,
            3 => Element::Bar,
            4 => Element::AndJoin,
            5 => Element::XorSplit(id),
            6 => Element::XorJoin,
            7 => Element::LoopStart,
            8 => Element::LoopEnd(id),
            _ => return None,
        };
        let fits = match element.id() {
            Some(id) => (id as usize) < IDS,
            None => id == NO_ID,
        };
        fits.then_some(element)
    }

    pub fn bytes(self) -> [u8; 2] {
        match self {
            Element::Activity(id) => [1, id],
            Element::AndSplit => [2, NO_ID],
            Element::Bar => [3, NO_ID],
            Element::AndJoin => [4, NO_ID],
            Element::XorSplit(id) => [5, id],
            Element::XorJoin => [6, NO_ID],
            Element::LoopStart => [7, NO_ID],
            Element::LoopEnd(id) => [8, id],
        }
    }

    /// The id of the node, if it is one.
    pub fn id(self) -> Option<u8> {
        match self {
            Element::Activity(id) | Element::XorSplit(id) | Element::LoopEnd(id) => Some(id),
            _ => None,
        }
    }
}

/// Whether a set of ids has one. An id above 63 is in none.
pub fn has(set: u64, id: u8) -> bool {
    (id as usize) < IDS && set >> id & 1 == 1
}

/// The ids of a set, in ascending order.
pub struct Ids(pub u64);

impl Iterator for Ids {
    type Item = u8;

    fn next(&mut self) -> Option<u8> {
        if self.0 == 0 {
            return None;
        }
        let id = self.0.trailing_zeros() as u8;
        self.0 &= self.0 - 1;
        Some(id)
    }
}

pub struct Schema {
    pub version: u16,
    pub row: Vec<Element>,
    pub edges: Vec<[u8; 2]>,
    pub layout: Layout,
    /// The place of each node; meaningful for ids in one of the next three sets.
    pub places: [u8; IDS],
    pub activities: u64,
    pub decisions: u64,
    pub tests: u64,
    /// For each activity the sources of the sync edges that lead to it.
    pub sources: [u64; IDS],
}

impl Schema {
    /// Checks a record and makes its schema.
    pub fn read(record: &SchemaRecord<'_>) -> Result<Schema, Refusal> {
        if record.elements.len() > MOST_ELEMENTS || record.edges.len() > MOST_EDGES {
            return Err(Refusal::new(10, LAYER));
        }
        let row = read_row(record.elements)?;
        let mut schema = Schema::of(record.version, row)
            .map_err(|place| Refusal::at(13, LAYER, place, NO_ID))?;
        for (place, &[source, target]) in record.edges.iter().enumerate() {
            if !edges::is_proper(&schema, source, target) {
                return Err(Refusal::at(14, LAYER, place, source));
            }
            schema.add_edge(source, target);
        }
        Ok(schema)
    }

    /// The schema of a row of proper elements, without sync edges, or the place at which its blocks do not nest.
    pub fn of(version: u16, row: Vec<Element>) -> Result<Schema, usize> {
        let layout = Layout::of(&row)?;
        let mut schema = Schema {
            version,
            row,
            edges: Vec::new(),
            layout,
            places: [0; IDS],
            activities: 0,
            decisions: 0,
            tests: 0,
            sources: [0; IDS],
        };
        schema.note_nodes();
        Ok(schema)
    }

    fn note_nodes(&mut self) {
        for (place, element) in self.row.iter().enumerate() {
            let (set, id) = match *element {
                Element::Activity(id) => (&mut self.activities, id),
                Element::XorSplit(id) => (&mut self.decisions, id),
                Element::LoopEnd(id) => (&mut self.tests, id),
                _ => continue,
            };
            *set |= 1 << id;
            self.places[id as usize] = place as u8;
        }
    }

    /// Adds a proper edge.
    pub fn add_edge(&mut self, source: u8, target: u8) {
        self.edges.push([source, target]);
        self.sources[target as usize] |= 1 << source;
    }

    pub fn nodes(&self) -> u64 {
        self.activities | self.decisions | self.tests
    }

    pub fn place(&self, id: u8) -> usize {
        self.places[id as usize] as usize
    }

    /// The block that begins at a place.
    pub fn block_from(&self, start: usize) -> &Block {
        &self.layout.blocks[self.layout.spots[start + 1].block as usize]
    }

    /// The block around a gap that one is around: before a bar, a join or a loop end their own.
    pub fn block_around(&self, gap: usize) -> &Block {
        &self.layout.blocks[self.layout.spots[gap].block as usize]
    }

    /// The bytes of its record.
    pub fn record(&self) -> Vec<u8> {
        let [high, low] = self.version.to_be_bytes();
        let mut record = vec![1, high, low, self.row.len() as u8];
        record.extend(self.row.iter().flat_map(|element| element.bytes()));
        record.push(self.edges.len() as u8);
        record.extend(self.edges.iter().flatten());
        record
    }
}

fn read_row(elements: &[[u8; 2]]) -> Result<Vec<Element>, Refusal> {
    let mut row = Vec::with_capacity(elements.len());
    let mut used = 0;
    for (place, &bytes) in elements.iter().enumerate() {
        let refusal = Refusal::at(11, LAYER, place, NO_ID);
        let element = Element::read(bytes).ok_or(refusal)?;
        if let Some(id) = element.id() {
            if has(used, id) {
                return Err(refusal);
            }
            used |= 1 << id;
        }
        row.push(element);
    }
    Ok(row)
}
