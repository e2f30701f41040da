//! Refusals and verdicts.

use crate::lines::CHARACTERS;

pub const NO_PLACE: u16 = 0xFFFF;
pub const NO_ID: u8 = 0xFF;

/// Why something is refused.
#[derive(Clone, Copy, PartialEq, Eq, Debug)]
pub struct Refusal {
    pub number: u8,
    pub layer: u8,
    pub place: u16,
    pub id: u8,
}

impl Refusal {
    pub fn new(number: u8, layer: u8) -> Self {
        Refusal {
            number,
            layer,
            place: NO_PLACE,
            id: NO_ID,
        }
    }

    pub fn at(number: u8, layer: u8, place: usize, id: u8) -> Self {
        Refusal {
            number,
            layer,
            place: place as u16,
            id,
        }
    }
}

/// What comes of judging a case.
#[derive(Clone, Copy, PartialEq, Eq, Debug)]
pub struct Verdict {
    pub case: u32,
    pub refusal: Option<Refusal>,
}

impl Verdict {
    /// Its line, with the newline.
    pub fn line(&self) -> [u8; 21] {
        let [n0, n1, n2, n3] = self.case.to_be_bytes();
        let told = self.refusal.unwrap_or(Refusal::new(0, 0));
        let [high, low] = told.place.to_be_bytes();
        let record = [
            4,
            n0,
            n1,
            n2,
            n3,
            told.number,
            told.layer,
            high,
            low,
            told.id,
        ];
        let mut line = [b'\n'; 21];
        for (pair, byte) in line.chunks_exact_mut(2).zip(record) {
            pair[0] = CHARACTERS[(byte >> 4) as usize];
            pair[1] = CHARACTERS[(byte & 15) as usize];
        }
        line
    }
}
