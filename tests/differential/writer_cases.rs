//! The directory pages, modes, places and runs of which two writers of sheets write.

use crate::common::random::Xorshift;
use crate::second::number::NUMBER_LIMIT;
use crate::second::sheet::{Run, FOUR_LEVEL, LAST_PLACE, PAE, PLAIN};
use crate::second::sheet_writer::{Given, MOST_GIVEN};

/// Numbers that are too large: the least, the next, one that ends in 36 zeros, the largest.
const TOO_LARGE: [u64; 4] = [NUMBER_LIMIT, NUMBER_LIMIT + 1, 1 << 63, u64::MAX];

/// Modes and places past their limits: the next ones, one that fits no byte, and the largest.
const OTHER_MODES: [u64; 4] = [PAE + 1, PAE + 2, NUMBER_LIMIT, u64::MAX];
const OTHER_PLACES: [u64; 4] = [LAST_PLACE + 1, LAST_PLACE + 2, NUMBER_LIMIT, u64::MAX];

/// What a sheet is written of, and the room for it.
pub struct Case {
    directory_page: u64,
    mode: u64,
    place: u64,
    starts: Vec<u64>,
    lengths: Vec<u64>,
    room: Room,
}

impl Case {
    pub fn given(&self) -> Given<'_> {
        Given {
            directory_page: self.directory_page,
            mode: self.mode,
            place: self.place,
            starts: &self.starts,
            lengths: &self.lengths,
        }
    }

    /// The bytes of room beside a sheet of this length.
    pub fn room(&self, sheet_length: usize) -> usize {
        match self.room {
            Room::None => 0,
            Room::OneShort => sheet_length.saturating_sub(1),
            Room::Part(hundredths) => sheet_length * hundredths / 100,
            Room::Exact => sheet_length,
            Room::More(more) => sheet_length + more,
        }
    }
}

enum Room {
    None,
    OneShort,
    /// So many hundredths.
    Part(usize),
    Exact,
    /// So many more.
    More(usize),
}

/// Hands so many cases to `take`, the same ones in the same order for the same seed.
pub fn each_case(seed: u64, how_many: u64, take: &mut dyn FnMut(&Case)) {
    let mut random = Xorshift::seeded(seed);
    for _ in 0..how_many {
        take(&random.case());
    }
}

impl Xorshift {
    fn one_in(&mut self, times: u64) -> bool {
        self.below(times) == 0
    }

    /// The first or the last of so many, or any.
    fn place_in(&mut self, count: usize) -> usize {
        match self.below(4) {
            0 => 0,
            1 => count - 1,
            _ => self.below(count as u64) as usize,
        }
    }

    fn too_large(&mut self) -> u64 {
        TOO_LARGE[self.below(4) as usize]
    }

    fn case(&mut self) -> Case {
        let mut runs = self.runs();
        let misses = [0, 0, 0, 1, 1, 2][self.below(6) as usize];
        for _ in 0..misses {
            self.miss_runs(&mut runs);
        }
        let mode = [FOUR_LEVEL, FOUR_LEVEL, PLAIN, PAE][self.below(4) as usize];
        let mut case = Case {
            mode,
            place: match mode {
                PAE => self.good_place(),
                _ => 0,
            },
            directory_page: match self.below(8) {
                0 => NUMBER_LIMIT - 1,
                _ => self.up_to_bits(36),
            },
            starts: runs.iter().map(|run| run.first_frame).collect(),
            lengths: runs.iter().map(|run| run.pages).collect(),
            room: self.room(),
        };
        if self.one_in(4) {
            self.miss_numbers(&mut case);
        }
        if self.one_in(8) {
            self.miss_mode_or_place(&mut case);
        }
        case
    }

    /// A place of a PAE directory, often at an edge.
    fn good_place(&mut self) -> u64 {
        match self.below(4) {
            0 => 0,
            1 => LAST_PLACE,
            _ => self.below(LAST_PLACE + 1),
        }
    }

    /// Makes the mode or the place too large, or gives a mode a place that it cannot have.
    fn miss_mode_or_place(&mut self, case: &mut Case) {
        match self.below(4) {
            0 => case.mode = OTHER_MODES[self.below(4) as usize],
            1 => {
                case.mode = PAE;
                case.place = OTHER_PLACES[self.below(4) as usize];
            }
            turn => {
                case.mode = [FOUR_LEVEL, PLAIN][turn as usize - 2];
                case.place = 1 + self.below(LAST_PLACE);
            }
        }
    }

    fn room(&mut self) -> Room {
        match self.below(8) {
            0 => Room::None,
            1 | 2 => Room::OneShort,
            3 => Room::Part(self.below(100) as usize),
            4 => Room::More(1),
            5 => Room::More(self.below(40) as usize),
            _ => Room::Exact,
        }
    }

    /// Good runs, save for their number and for a joined run of 2^36 pages.
    fn runs(&mut self) -> Vec<Run> {
        let count = self.run_count();
        match self.below(16) {
            _ if count == 0 => Vec::new(),
            0 => self.split(0, NUMBER_LIMIT, count),
            1 => self.split(0, NUMBER_LIMIT - 1, count),
            2 => self.split(1, NUMBER_LIMIT, count),
            3 => {
                let start = self.up_to_bits(35);
                let pages = count + self.up_to_bits(34);
                self.split(start, start + pages, count)
            }
            4..=7 if count >= MOST_GIVEN as u64 => self.split(0, 2 * count, count),
            8..=11 if count >= MOST_GIVEN as u64 => self.chain(count, 0),
            _ => {
                let touching = self.below(5);
                self.chain(count, touching)
            }
        }
    }

    fn run_count(&mut self) -> u64 {
        match self.below(128) {
            0 | 1 => 0,
            2..=40 => 1,
            41..=108 => 2 + self.below(8),
            109..=116 => 10 + self.below(60),
            117 | 118 => 31 + self.below(4),
            119 => 126 + self.below(4),
            120 | 121 => MOST_GIVEN as u64 - 1,
            122..=125 => MOST_GIVEN as u64,
            _ => MOST_GIVEN as u64 + 1,
        }
    }

    /// So many runs that touch, from one page to another.
    fn split(&mut self, start: u64, end: u64, count: u64) -> Vec<Run> {
        let mut runs = Vec::new();
        let mut next = start;
        for left in (0..count).rev() {
            // Each run behind this one needs a page.
            let most = end - next - left;
            let pages = match left {
                0 => most,
                _ => 1 + self.up_to_bits(35).min(most - 1),
            };
            runs.push(Run {
                first_frame: next,
                pages,
            });
            next += pages;
        }
        runs
    }

    /// So many runs, of which so many in four touch the one before; the last one may end at the top.
    fn chain(&mut self, count: u64, touching: u64) -> Vec<Run> {
        let widest = 1 + self.below(36);
        let mut runs = Vec::new();
        let mut next = 0;
        // What is left for gaps and for lengths of more than a page.
        let mut spare = NUMBER_LIMIT - count;
        for left in (0..count).rev() {
            let gap = match self.below(4) {
                turn if turn < touching => 0,
                3 => (1 + self.up_to_bits(widest)).min(spare),
                _ => 1.min(spare),
            };
            spare -= gap;
            let to_top = left == 0 && self.one_in(4);
            let more = self.up_to_bits(widest).min(spare);
            spare -= more;
            runs.push(Run {
                first_frame: next + gap + if to_top { spare } else { 0 },
                pages: 1 + more,
            });
            next += gap + 1 + more;
        }
        runs
    }

    /// Changes the runs so that they are mostly wrong.
    fn miss_runs(&mut self, runs: &mut Vec<Run>) {
        if runs.is_empty() {
            return;
        }
        let at = self.place_in(runs.len());
        let last = runs.len() - 1;
        let end_before = match at {
            0 => 0,
            _ => runs[at - 1].first_frame.wrapping_add(runs[at - 1].pages),
        };
        match self.below(12) {
            0 | 1 => runs[at].pages = 0,
            2 => {
                let empty = Run {
                    first_frame: end_before,
                    pages: 0,
                };
                runs.insert(at, empty);
            }
            3 | 4 => runs[at].first_frame = end_before.saturating_sub(1),
            5 => runs[at].first_frame = self.below(end_before.max(1)),
            6 => {
                let other = self.place_in(runs.len());
                runs.swap(at, other);
            }
            7 => runs.insert(at, runs[at]),
            8 | 9 => {
                runs[last].pages = NUMBER_LIMIT
                    .wrapping_sub(runs[last].first_frame)
                    .wrapping_add(1)
            }
            10 => runs[last].pages = NUMBER_LIMIT - 1 - self.up_to_bits(8),
            _ => {
                runs[0].pages = 0;
                runs[last].first_frame = self.too_large();
            }
        }
    }

    /// Makes a number too large, or one list longer than the other.
    fn miss_numbers(&mut self, case: &mut Case) {
        let number = self.too_large();
        let list = match self.one_in(2) {
            true => &mut case.starts,
            false => &mut case.lengths,
        };
        match self.below(8) {
            0 => case.directory_page = number,
            1..=4 if !list.is_empty() => {
                let at = self.place_in(list.len());
                list[at] = number;
            }
            5 => drop(list.pop()),
            6 => list.push(1 + list.last().copied().unwrap_or(0) % NUMBER_LIMIT),
            _ => list.truncate(self.below(1 + list.len() as u64) as usize),
        }
    }
}
