//! The blocks of a row, and where each gap stands in them.

use crate::schema::Element;

/// Told for a gap that no block is around.
pub const TOP: u8 = 0xFF;

const MOST_BRANCHES: usize = 8;

#[derive(Clone, Copy, PartialEq, Eq, Debug)]
pub enum BlockKind {
    And,
    Xor,
    Loop,
}

/// The innermost block around a gap, and the branch in it.
#[derive(Clone, Copy, PartialEq, Eq, Debug)]
pub struct Spot {
    pub block: u8,
    pub branch: u8,
}

#[derive(Clone, Copy, Debug)]
pub struct Block {
    pub kind: BlockKind,
    /// Where the whole block stands.
    pub around: Spot,
    /// How many blocks are around it.
    pub depth: u8,
    /// The innermost loop that it is in or is, `TOP` for none.
    pub innermost_loop: u8,
    pub branches: u8,
    /// The places of its start, its bars and its end: branch `i` lies between `dividers[i]` and `dividers[i + 1]`.
    pub dividers: [u8; MOST_BRANCHES + 1],
    /// The nodes of each branch, at any depth.
    pub nodes: [u64; MOST_BRANCHES],
}

impl Block {
    pub fn first_gap(&self, branch: u8) -> usize {
        self.dividers[branch as usize] as usize + 1
    }

    pub fn end(&self) -> usize {
        self.dividers[self.branches as usize] as usize
    }
}

pub struct Layout {
    /// For each gap.
    pub spots: Vec<Spot>,
    pub blocks: Vec<Block>,
}

impl Layout {
    /// Lays a row out, or tells the first place that breaks the nesting of blocks.
    pub fn of(row: &[Element]) -> Result<Layout, usize> {
        let mut layout = Layout {
            spots: Vec::with_capacity(row.len() + 1),
            blocks: Vec::with_capacity(row.len() / 2),
        };
        let mut spot = Spot {
            block: TOP,
            branch: 0,
        };
        for (place, element) in row.iter().enumerate() {
            layout.spots.push(spot);
            spot = layout.behind(spot, place, element).ok_or(place)?;
        }
        layout.spots.push(spot);
        if spot.block != TOP {
            return Err(row.len());
        }
        layout.note_nodes(row);
        Ok(layout)
    }

    fn behind(&mut self, spot: Spot, place: usize, element: &Element) -> Option<Spot> {
        match element {
            Element::Activity(_) => Some(spot),
            Element::AndSplit => Some(self.begin(spot, place, BlockKind::And)),
            Element::XorSplit(_) => Some(self.begin(spot, place, BlockKind::Xor)),
            Element::LoopStart => Some(self.begin(spot, place, BlockKind::Loop)),
            Element::Bar => self.divide(spot, place),
            Element::AndJoin => self.close(spot, place, BlockKind::And),
            Element::XorJoin => self.close(spot, place, BlockKind::Xor),
            Element::LoopEnd(_) => self.close(spot, place, BlockKind::Loop),
        }
    }

    fn begin(&mut self, around: Spot, place: usize, kind: BlockKind) -> Spot {
        let index = self.blocks.len() as u8;
        let outer = self.blocks.get(around.block as usize);
        let mut dividers = [0; MOST_BRANCHES + 1];
        dividers[0] = place as u8;
        self.blocks.push(Block {
            kind,
            around,
            depth: outer.map_or(0, |outer| outer.depth + 1),
            innermost_loop: match kind {
                BlockKind::Loop => index,
                _ => outer.map_or(TOP, |outer| outer.innermost_loop),
            },
            branches: 1,
            dividers,
            nodes: [0; MOST_BRANCHES],
        });
        Spot {
            block: index,
            branch: 0,
        }
    }

    fn divide(&mut self, spot: Spot, place: usize) -> Option<Spot> {
        let block = self.blocks.get_mut(spot.block as usize)?;
        if block.kind == BlockKind::Loop || block.branches as usize == MOST_BRANCHES {
            return None;
        }
        block.dividers[block.branches as usize] = place as u8;
        block.branches += 1;
        Some(Spot {
            branch: spot.branch + 1,
            ..spot
        })
    }

    fn close(&mut self, spot: Spot, place: usize, kind: BlockKind) -> Option<Spot> {
        let block = self.blocks.get_mut(spot.block as usize)?;
        if block.kind != kind || (kind != BlockKind::Loop && block.branches == 1) {
            return None;
        }
        block.dividers[block.branches as usize] = place as u8;
        Some(block.around)
    }

    /// Enters each node in the branches that hold it. A loop's test is in no branch of it.
    fn note_nodes(&mut self, row: &[Element]) {
        for (place, element) in row.iter().enumerate() {
            let Some(id) = element.id() else {
                continue;
            };
            let mut spot = self.spots[place];
            if matches!(element, Element::LoopEnd(_)) {
                spot = self.blocks[spot.block as usize].around;
            }
            while spot.block != TOP {
                let block = &mut self.blocks[spot.block as usize];
                block.nodes[spot.branch as usize] |= 1 << id;
                spot = block.around;
            }
        }
    }

    /// The spots of one block, the innermost around both gaps, in which each of them lies; `None` if no block is around both.
    pub fn meeting(&self, first: usize, second: usize) -> Option<(Spot, Spot)> {
        let (mut first, mut second) = (self.spots[first], self.spots[second]);
        while first.block != second.block {
            if self.depth(first) >= self.depth(second) {
                first = self.blocks[first.block as usize].around;
            } else {
                second = self.blocks[second.block as usize].around;
            }
        }
        (first.block != TOP).then_some((first, second))
    }

    /// How many blocks are around a spot.
    fn depth(&self, spot: Spot) -> u8 {
        self.blocks
            .get(spot.block as usize)
            .map_or(0, |block| block.depth + 1)
    }

    /// The innermost loop around a gap, `TOP` for none.
    pub fn innermost_loop(&self, gap: usize) -> u8 {
        self.blocks
            .get(self.spots[gap].block as usize)
            .map_or(TOP, |block| block.innermost_loop)
    }
}
