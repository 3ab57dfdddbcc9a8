//! Words written by virtual address, and rings of nodes linked both ways.

use crate::common::case_files::CaseFiles;
use crate::common::memory::Memory;
use crate::second::lists::MOST_NODES;
use crate::second::slip::Slip;
use crate::second::walk::{self, word_at, Files};
use std::collections::HashSet;

/// A list's head, and its nodes in order.
#[derive(Clone)]
pub struct Ring {
    pub head: u64,
    pub nodes: Vec<u64>,
}

impl Ring {
    /// The address so many links on from the head, the head itself at last.
    pub fn after(&self, links: usize) -> u64 {
        match links {
            0 => self.head,
            _ => self.nodes.get(links - 1).copied().unwrap_or(self.head),
        }
    }

    /// Links the head and all nodes.
    pub fn link_all(&self, files: &mut CaseFiles) {
        for links in 0..=self.nodes.len() {
            link(files, self.after(links), self.after(links + 1));
        }
    }
}

/// Links one address to the next, forward and back.
pub fn link(files: &mut CaseFiles, from: u64, to: u64) {
    put(files, from, to);
    put(files, to.wrapping_add(8), from);
}

/// Puts a word where its address leads, if it leads into a file; hands back the one before.
pub fn put(files: &mut CaseFiles, address: u64, word: u64) -> Option<u64> {
    let (number, offset) = place_of(files, address)?;
    let file = match number {
        1 => &mut files.image,
        _ => &mut files.pagefile,
    };
    let bytes = file.get_mut(offset as usize..offset as usize + 8)?;
    let before = u64::from_le_bytes((&*bytes).try_into().expect("a word has 8 bytes"));
    bytes.copy_from_slice(&word.to_le_bytes());
    Some(before)
}

/// The first address that is refused on the way through a list, if one is.
pub fn refused_address(files: Files, head: u64) -> Option<u64> {
    let mut node = head;
    for _ in 0..=MOST_NODES {
        let Some(forward) = word_in(files, node) else {
            return Some(node);
        };
        let back = forward.checked_add(8)?;
        if word_in(files, back).is_none() {
            return Some(back);
        }
        node = forward;
    }
    None
}

/// The word at an address, if it is not refused.
fn word_in(files: Files, address: u64) -> Option<u64> {
    let answer = walk::resolve(files, address, Slip::None);
    match answer.number {
        1 => Some(word_at(files.image, answer.offset)),
        2 => Some(word_at(files.pagefile, answer.offset)),
        3 => Some(0),
        _ => None,
    }
}

/// The file and offset that an address leads to.
fn place_of(files: &CaseFiles, address: u64) -> Option<(u64, u64)> {
    let answer = walk::resolve(files.lent(), address, Slip::None);
    (answer.number <= 2).then_some((answer.number, answer.offset))
}

/// Which words of the two files are spoken for.
pub struct Cells {
    taken: HashSet<(u64, u64)>,
}

impl Cells {
    /// All words but those of entries in tables.
    pub fn beside_tables(memory: &Memory) -> Self {
        let entries = memory.put.iter().map(|offset| (1, *offset as u64));
        Cells {
            taken: entries.collect(),
        }
    }

    /// Takes the two words of a node, if both lead into a file and are free.
    pub fn take(&mut self, files: &CaseFiles, node: u64) -> bool {
        let forward = place_of(files, node);
        let back = node
            .checked_add(8)
            .and_then(|address| place_of(files, address));
        let (Some(forward), Some(back)) = (forward, back) else {
            return false;
        };
        let free = forward != back && !self.taken.contains(&forward) && !self.taken.contains(&back);
        if free {
            self.taken.extend([forward, back]);
        }
        free
    }
}
