//! States as bytes: what the parts that keep one share. A table has the name, the
//! offset and the length of each field.

use crate::interleaver::{Branches, DEPTH};
use std::ops::Range;

pub type Row = (&'static str, usize, usize);

pub fn place_of(layout: &[Row], name: &str) -> Range<usize> {
    let (_, offset, length) = layout[layout.iter().position(|field| field.0 == name).unwrap()];
    offset..offset + length
}

/// The positions of the branches, where each is within its branch.
pub fn positions_in(branches: &Branches, bytes: &[u8]) -> Option<Vec<usize>> {
    let within = |(queue, position): (&std::collections::VecDeque<u8>, &u8)| (*position as usize) < queue.len().max(1);
    let positions = bytes.iter().map(|p| *p as usize).collect();
    branches.queues.iter().zip(bytes).all(within).then_some(positions)
}

/// Branches from their cells, with the oldest of each at its position.
pub fn fill(branches: &mut Branches, mut cells: &[u8], positions: &[usize]) {
    for (queue, position) in branches.queues.iter_mut().zip(positions) {
        let (own, rest) = cells.split_at(queue.len());
        *queue = own[*position..].iter().chain(&own[..*position]).copied().collect();
        cells = rest;
    }
}

/// The cells of branches, with the oldest of each at its position.
pub fn cells_of(branches: &Branches, positions: &[usize]) -> Vec<u8> {
    let mut cells = Vec::new();
    for (queue, position) in branches.queues.iter().zip(positions) {
        let back = queue.len() - position;
        cells.extend(queue.iter().skip(back).chain(queue.iter().take(back)));
    }
    cells
}

/// The positions one block on.
pub fn advance(branches: &Branches, positions: &mut [usize]) {
    for (queue, position) in branches.queues.iter().zip(positions) {
        *position = (*position + DEPTH) % queue.len().max(1);
    }
}

/// Tables in texts.
#[cfg(test)]
pub mod tables {
    pub type Rows = Vec<(String, usize, usize)>;

    pub fn owned(layout: &[super::Row]) -> Rows {
        layout.iter().map(|(name, offset, length)| (name.to_string(), *offset, *length)).collect()
    }

    fn row(line: &str) -> Option<(String, usize, usize)> {
        let words: Vec<&str> = line.split(|c: char| c == '|' || c == '*' || c.is_whitespace()).filter(|w| !w.is_empty()).collect();
        match words[..] {
            [offset, length, name, _, ..] => Some((name.to_string(), offset.parse().ok()?, length.parse().ok()?)),
            _ => None,
        }
    }

    /// The rows of the first table after a heading: name, offset and bytes, in a line "| OFFSET | BYTES | NAME |" or "* OFFSET BYTES NAME".
    pub fn rows_after(heading: &str, text: &str) -> Rows {
        let from = text.find(heading).expect(heading);
        text[from..].lines().map(row).skip_while(Option::is_none).map_while(|row| row).collect()
    }

    /// The rows of a specification: a line "NAME = field OFFSET BYTES (".
    pub fn specified(text: &str) -> Rows {
        text.lines()
            .filter_map(|line| match line.split_whitespace().collect::<Vec<_>>()[..] {
                [name, "=", "field", offset, length, ..] => Some((name.to_string(), offset.parse().ok()?, length.parse().ok()?)),
                _ => None,
            })
            .collect()
    }

    /// Each field begins where the one before it ends, and the last ends with the state.
    pub fn fills(layout: &[super::Row], length: usize) -> bool {
        let mut at = 0;
        let in_order = layout.iter().all(|(_, offset, size)| {
            let begins = *offset == at;
            at += size;
            begins
        });
        in_order && at == length
    }
}
