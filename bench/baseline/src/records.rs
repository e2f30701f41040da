//! Records: the bytes of a line, taken apart by their type and counts.

pub struct SchemaRecord<'a> {
    pub version: u16,
    /// Kind and id of each element.
    pub elements: &'a [[u8; 2]],
    /// Source and target of each sync edge.
    pub edges: &'a [[u8; 2]],
}

impl<'a> SchemaRecord<'a> {
    pub fn read(record: &'a [u8]) -> Option<Self> {
        let [1, high, low, count, rest @ ..] = record else {
            return None;
        };
        let (elements, rest) = rest.split_at_checked(2 * *count as usize)?;
        let [count, edges @ ..] = rest else {
            return None;
        };
        (edges.len() == 2 * *count as usize).then(|| SchemaRecord {
            version: u16::from_be_bytes([*high, *low]),
            elements: elements.as_chunks().0,
            edges: edges.as_chunks().0,
        })
    }
}

/// The changes that a plan line lists.
pub fn read_plan(record: &[u8]) -> Option<&[[u8; 4]]> {
    let [2, count, changes @ ..] = record else {
        return None;
    };
    (changes.len() == 4 * *count as usize).then_some(changes.as_chunks().0)
}

#[derive(Clone, Copy)]
pub struct CaseRecord<'a> {
    pub number: u32,
    /// Kind, id and branch of each entry.
    pub entries: &'a [[u8; 3]],
}

impl<'a> CaseRecord<'a> {
    pub fn read(record: &'a [u8]) -> Option<Self> {
        let [3, n0, n1, n2, n3, high, low, entries @ ..] = record else {
            return None;
        };
        let count = u16::from_be_bytes([*high, *low]) as usize;
        (entries.len() == 3 * count).then(|| CaseRecord {
            number: u32::from_be_bytes([*n0, *n1, *n2, *n3]),
            entries: entries.as_chunks().0,
        })
    }
}
