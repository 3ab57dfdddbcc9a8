//! Frames at the edges of runs, for each number of runs: first and last frames, those between runs, below and above all.

use crate::common::case_files::CaseFiles;
use crate::common::groups::sheet_of;
use crate::common::memory::{
    canonical, entry_offset, sheet_fields, LAST_LEVEL, PAGE_BYTES, TRANSITION, VALID,
};
use crate::common::print::with_commas;
use crate::common::random::Xorshift;
use crate::second::codes::{FRAME_IN_NO_RUN, IMAGE};
use crate::walk_cases::Question;

/// The most runs of a case.
const MOST_RUNS: usize = 32;

/// The widest gap, so that 32 of them stay far below the top frame.
const GAP_BITS: u64 = 30;

/// An address whose frame is at an edge, with the answer that the runs give it.
pub struct Edge {
    pub runs: usize,
    /// Which of the case's edges it is.
    pub which: usize,
    pub question: Question,
    /// Number, offset and entries read.
    pub wanted: [u64; 3],
}

/// How many edges there are at so many runs: two in each, one before each and one above all.
fn edges_at(runs: usize) -> usize {
    3 * runs + 1
}

/// How often each edge was answered as the runs say.
pub struct EdgeTimes {
    /// By the number of runs, then by the edge.
    times: Vec<Vec<u64>>,
}

impl EdgeTimes {
    pub fn new() -> Self {
        let times = (1..=MOST_RUNS).map(|runs| vec![0; edges_at(runs)]);
        EdgeTimes {
            times: times.collect(),
        }
    }

    pub fn count(&mut self, edge: &Edge) {
        self.times[edge.runs - 1][edge.which] += 1;
    }

    pub fn print(&self) {
        let edges: Vec<u64> = self.times.concat();
        let rarest = edges.iter().min().expect("there are edges");
        println!(
            "edges of 1 to {} runs: {}, each met {} times or more",
            MOST_RUNS,
            with_commas(edges.len() as u64),
            rarest
        );
    }

    /// A reason to fail for each number of runs that has an edge met less often.
    pub fn reasons(&self, least: u64) -> Vec<String> {
        let rarest = self.times.iter().map(|edges| edges.iter().min());
        let rare = (1..)
            .zip(rarest.flatten())
            .filter(|(_, times)| **times < least);
        rare.map(|(runs, times)| {
            format!(
                "an edge of {} runs was met {} times, wanted {}",
                runs, times, least
            )
        })
        .collect()
    }
}

/// Hands each edge at each number of runs to `take`, so many times, each time in another case.
pub fn each_edge(seed: u64, times: u64, take: &mut dyn FnMut(&CaseFiles, &Edge)) {
    // A state of 0 would stay 0.
    let mut random = Xorshift {
        state: seed.wrapping_add(1).wrapping_mul(0xD1B5_4A32_D192_ED03) | 1,
    };
    for _ in 0..times {
        for runs in 1..=MOST_RUNS {
            let case = Case::new(runs, &mut random);
            let (files, edges) = case.lay(&mut random);
            edges.iter().for_each(|edge| take(&files, edge));
        }
    }
}

struct Run {
    first: u64,
    last: u64,
}

struct Case {
    runs: Vec<Run>,
    /// The frame of each image page.
    frames: Vec<u64>,
}

impl Case {
    /// Runs that are apart, with frames below the first and above the last.
    fn new(runs: usize, random: &mut Xorshift) -> Self {
        let widest = random.below(GAP_BITS + 1);
        let mut case = Case {
            runs: Vec::new(),
            frames: Vec::new(),
        };
        let mut end = 0;
        for run in 0..runs {
            let first = end + 1 + random.up_to_bits(widest);
            // The tables of all levels need a page each.
            let least = if run == 0 { u64::from(LAST_LEVEL) } else { 1 };
            let last = first + least - 1 + random.below(3);
            case.runs.push(Run { first, last });
            case.frames.extend(first..=last);
            end = last + 1;
        }
        case
    }

    /// The frame of each edge, ascending.
    fn edge_frames(&self, random: &mut Xorshift) -> Vec<u64> {
        let mut frames = Vec::new();
        let mut end = 0;
        for run in &self.runs {
            let gap = run.first - end;
            frames.push(match random.below(3) {
                0 => end,
                1 => run.first - 1,
                _ => end + random.below(gap),
            });
            frames.extend([run.first, run.last]);
            end = run.last + 1;
        }
        frames.push(end + random.up_to_bits(GAP_BITS));
        frames
    }

    /// A case in which a page of its own leads to each edge, by one table of each level.
    fn lay(&self, random: &mut Xorshift) -> (CaseFiles, Vec<Edge>) {
        let mut image = vec![0; self.frames.len() * PAGE_BYTES];
        let tables = self.tables(random);
        let first_page = canonical(random.next() & !0x1F_FFFF);
        let mut put = |table: usize, page: u64, level: u32, entry: u64| {
            let offset = entry_offset(table, page, level);
            image[offset..offset + 8].copy_from_slice(&entry.to_le_bytes());
        };
        for level in 1..LAST_LEVEL {
            let below = tables[level as usize];
            let entry = self.frames[below] << 12 | VALID;
            put(tables[level as usize - 1], first_page, level, entry);
        }
        let mut edges = Vec::new();
        for (which, frame) in self.edge_frames(random).into_iter().enumerate() {
            let page = first_page + (which * PAGE_BYTES) as u64;
            let state = [VALID, TRANSITION][random.below(2) as usize];
            put(tables[3], page, LAST_LEVEL, frame << 12 | state);
            edges.push(self.edge(which, frame, page, random));
        }
        let directory_page = self.frames[tables[0]];
        let files = CaseFiles {
            sheet: sheet_of(&sheet_fields(directory_page, &self.frames)),
            image,
            pagefile: Vec::new(),
        };
        (files, edges)
    }

    /// An image page for the table of each level, all different.
    fn tables(&self, random: &mut Xorshift) -> [usize; LAST_LEVEL as usize] {
        let mut pages: Vec<usize> = (0..self.frames.len()).collect();
        [0; LAST_LEVEL as usize].map(|_| {
            let which = random.below(pages.len() as u64) as usize;
            pages.swap_remove(which)
        })
    }

    fn edge(&self, which: usize, frame: u64, page: u64, random: &mut Xorshift) -> Edge {
        let place = random.below(PAGE_BYTES as u64);
        let n = random.below(64);
        let entries = u64::from(LAST_LEVEL);
        Edge {
            runs: self.runs.len(),
            which,
            question: Question {
                address: page + place,
                start: page + place,
                n,
                room: n as usize,
            },
            wanted: match self.frames.binary_search(&frame) {
                Ok(page) => [IMAGE, (page * PAGE_BYTES) as u64 + place, entries],
                Err(_) => [u64::from(FRAME_IN_NO_RUN), 0, entries],
            },
        }
    }
}
