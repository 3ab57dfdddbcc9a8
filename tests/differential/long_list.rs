//! One image with a ring of more nodes than a list may have, cut to any length.

use crate::common::case_files::CaseFiles;
use crate::common::groups::sheet_of;
use crate::common::memory::{Memory, LAST_LEVEL};
use crate::common::random::Xorshift;
use crate::links::{link, put, Ring};
use crate::list_cases::Question;
use crate::second::lists::MOST_NODES;

/// How many nodes the ring has.
const NODES: usize = MOST_NODES + 2;
const NODE_BYTES: u64 = 16;
const PAGE: u64 = 4096;

/// The ring, and a node whose back word alone can be read.
pub struct LongList {
    files: CaseFiles,
    ring: Ring,
    half_node: u64,
}

impl LongList {
    /// The nodes lie in neighbour pages, in no order, some across two of them.
    pub fn new(random: Xorshift) -> Self {
        let frames = (0x100..0x110).chain(0x200..0x218).collect();
        let mut memory = Memory::over(frames, random);
        let start = 0xFFFF_FA80_0000_0000 + (memory.random.below(0x4_0000) << 12);
        let pages = (NODES as u64 + 1) * NODE_BYTES / PAGE + 2;
        // The page before the nodes is left out.
        for page in 1..=pages {
            let image_page = memory.take_page();
            let frame = memory.frames[image_page];
            let entry = match page % 2 {
                0 => memory.valid_in(frame),
                _ => memory.transition_in(frame),
            };
            memory.put_entry(start + page * PAGE, LAST_LEVEL, entry);
        }
        let first = start + PAGE + NODE_BYTES / 2;
        let mut cells: Vec<u64> = (0..=NODES as u64)
            .map(|cell| first + cell * NODE_BYTES)
            .collect();
        shuffle(&mut cells, &mut memory.random);
        let ring = Ring {
            head: cells[0],
            nodes: cells[1..].to_vec(),
        };
        let mut files = CaseFiles {
            sheet: sheet_of(&memory.sheet_fields()),
            image: memory.image,
            pagefile: memory.pagefile,
        };
        ring.link_all(&mut files);
        LongList {
            files,
            ring,
            half_node: start + PAGE - 8,
        }
    }

    /// Asks about a list around the longest one, with or without a fault near its end.
    pub fn ask(&mut self, random: &mut Xorshift, take: &mut dyn FnMut(&CaseFiles, &Question)) {
        let Ring { head, ref nodes } = self.ring;
        let length = match random.below(5) {
            0 => MOST_NODES - 1,
            1 | 2 => MOST_NODES,
            _ => MOST_NODES + 1,
        };
        let last = nodes[length - 1];
        let behind = nodes[length];
        let end = nodes[NODES - 1];
        link(&mut self.files, last, head);
        let changed = self.fault(length, random);
        let room = match random.below(8) {
            0 => length - 1,
            1 => MOST_NODES - 1,
            2 | 3 => MOST_NODES,
            4 => MOST_NODES + 1,
            5 => random.below(5000) as usize,
            _ => length,
        };
        take(&self.files, &Question::List { head, room });
        if let Some((address, Some(word))) = changed {
            put(&mut self.files, address, word);
        }
        link(&mut self.files, last, behind);
        link(&mut self.files, end, head);
    }

    /// Breaks a word of the last nodes; its address and the word before.
    fn fault(&mut self, length: usize, random: &mut Xorshift) -> Option<(u64, Option<u64>)> {
        let node = self.ring.after(length - random.below(3) as usize);
        let (address, word) = match random.below(12) {
            0 => (node, self.ring.head | 4),
            1 => (node + 8, self.ring.head),
            2 => (self.ring.head + 8, self.ring.nodes[0]),
            3 | 4 => {
                // No other node has this back word.
                put(&mut self.files, self.half_node + 8, node);
                (node, self.half_node)
            }
            _ => return None,
        };
        Some((address, put(&mut self.files, address, word)))
    }
}

fn shuffle(cells: &mut [u64], random: &mut Xorshift) {
    for place in (1..cells.len()).rev() {
        cells.swap(place, random.below(place as u64 + 1) as usize);
    }
}
