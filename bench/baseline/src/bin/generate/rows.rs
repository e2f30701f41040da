//! Random schemas.

use crate::kinds::Kind;
use crate::random::Random;
use baseline::edges::is_proper;
use baseline::schema::{Element, Schema, IDS};

/// The fewest elements that a block of two branches is begun for.
const BLOCK: usize = 5;

/// A schema of a kind; its ids are shuffled.
pub fn schema(kind: &Kind, random: &mut Random) -> Schema {
    loop {
        let mut row = Vec::new();
        let elements = random.between(kind.elements);
        sequence(kind, random, &mut row, elements);
        let nodes = row.iter().filter(|element| element.id().is_some()).count();
        if nodes < kind.nodes.0 || nodes > kind.nodes.1 {
            continue;
        }
        name_nodes(random, &mut row);
        let mut schema = Schema::of(1, row).expect("blocks nest as they are made");
        add_edges(random, &mut schema, kind.edges);
        if schema.edges.len() == kind.edges {
            return schema;
        }
    }
}

/// Appends a sequence of this many elements, whose nodes have no ids yet.
fn sequence(kind: &Kind, random: &mut Random, row: &mut Vec<Element>, elements: usize) {
    let mut left = elements;
    while left > 0 {
        if left >= BLOCK && random.percent(kind.blocks) {
            let size = random.between((BLOCK, left.min(24)));
            block(kind, random, row, size);
            left -= size;
        } else {
            row.push(Element::Activity(0));
            left -= 1;
        }
    }
}

fn block(kind: &Kind, random: &mut Random, row: &mut Vec<Element>, size: usize) {
    let sort = random.below(100);
    if sort < kind.loops {
        row.push(Element::LoopStart);
        sequence(kind, random, row, size - 2);
        row.push(Element::LoopEnd(0));
    } else if sort < kind.loops + kind.xor {
        row.push(Element::XorSplit(0));
        branches(kind, random, row, size - 2);
        row.push(Element::XorJoin);
    } else {
        row.push(Element::AndSplit);
        branches(kind, random, row, size - 2);
        row.push(Element::AndJoin);
    }
}

/// Appends branches and bars of this many elements together. Now and then a branch is empty.
fn branches(kind: &Kind, random: &mut Random, row: &mut Vec<Element>, elements: usize) {
    let most = elements.div_ceil(2).min(8);
    let count = random.between((2, most.max(2)));
    let mut left = elements - (count - 1);
    for later in (0..count).rev() {
        let size = match later {
            0 => left,
            _ => random.between((0, 2 * left / (later + 1))).min(left),
        };
        sequence(kind, random, row, size);
        left -= size;
        if later > 0 {
            row.push(Element::Bar);
        }
    }
}

fn name_nodes(random: &mut Random, row: &mut [Element]) {
    let mut ids: Vec<u8> = (0..IDS as u8).collect();
    random.shuffle(&mut ids);
    for element in row {
        if let Element::Activity(id) | Element::XorSplit(id) | Element::LoopEnd(id) = element {
            *id = ids.pop().expect("no more nodes than ids");
        }
    }
}

fn add_edges(random: &mut Random, schema: &mut Schema, count: usize) {
    for _ in 0..1_000 {
        if schema.edges.len() == count || schema.activities == 0 {
            return;
        }
        let (source, target) = (random.id(schema.activities), random.id(schema.activities));
        if is_proper(schema, source, target) {
            schema.add_edge(source, target);
        }
    }
}
