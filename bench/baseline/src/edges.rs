//! Precedence, and which sync edges are proper.

use crate::layout::BlockKind;
use crate::schema::{has, Schema};

/// Whether one node precedes another: it stands earlier, and no block holds them in different branches.
fn precedes(schema: &Schema, first: u8, second: u8) -> bool {
    let (first, second) = (schema.place(first), schema.place(second));
    first < second
        && schema
            .layout
            .meeting(first, second)
            .is_none_or(|(first, second)| first.branch == second.branch)
}

/// Whether an edge is proper behind those that the schema has.
pub fn is_proper(schema: &Schema, source: u8, target: u8) -> bool {
    has(schema.activities, source)
        && has(schema.activities, target)
        && are_parallel(schema, source, target)
        && !schema.edges.contains(&[source, target])
        && !leads(schema, target, source)
}

/// Whether two activities are in different branches of one AND block, and in the same innermost loop or in none.
fn are_parallel(schema: &Schema, source: u8, target: u8) -> bool {
    let (source, target) = (schema.place(source), schema.place(target));
    let layout = &schema.layout;
    let apart = layout
        .meeting(source, target)
        .is_some_and(|(first, second)| {
            first.branch != second.branch
                && layout.blocks[first.block as usize].kind == BlockKind::And
        });
    apart && layout.innermost_loop(source) == layout.innermost_loop(target)
}

/// Whether a path leads from one node to another, by precedence and edges. A path is told by the edges that it takes.
fn leads(schema: &Schema, from: u8, to: u8) -> bool {
    let reaches = |first, second| first == second || precedes(schema, first, second);
    let mut taken = [false; crate::schema::MOST_EDGES];
    let mut open = vec![from];
    while let Some(node) = open.pop() {
        if reaches(node, to) {
            return true;
        }
        for (edge, taken) in schema.edges.iter().zip(&mut taken) {
            if !*taken && reaches(node, edge[0]) {
                *taken = true;
                open.push(edge[1]);
            }
        }
    }
    false
}
