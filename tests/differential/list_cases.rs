//! The questions on which two block searches and two list readers are compared.

use crate::block_cases::{damage_block, lay_blocks, offset_about};
use crate::common::bad_forms::{BAD_FORM_CASES, SHEET};
use crate::common::case_files::{damage_files, damage_tables, other_sheet, CaseFiles};
use crate::common::memory::{canonical, Home, Memory, EDGE_PAGES, LAST_LEVEL};
use crate::common::random::Xorshift;
use crate::common::small_case::small_case;
use crate::links::{link, put, Cells, Ring};
use crate::long_list::LongList;

/// A search from an image offset, or a list at a head into so much room.
pub enum Question {
    Block { from: u64 },
    List { head: u64, room: usize },
}

/// Every so many questions, one is about a list of some 4,096 nodes.
const LONG_LIST_EVERY: u64 = 40;

/// Hands so many questions to `take`, the same ones in the same order for the same seed.
pub fn each_question(seed: u64, how_many: u64, take: &mut dyn FnMut(&CaseFiles, &Question)) {
    let mut random = Xorshift::seeded(seed);
    let mut questions = Questions {
        take,
        left: how_many,
        long_list: LongList::new(Xorshift {
            state: random.next(),
        }),
    };
    while questions.left > 0 {
        let mut memory = Memory::new(random);
        match memory.random.below(2) {
            0 => ask_blocks(&mut memory, &mut questions),
            _ => ask_lists(&mut memory, &mut questions),
        }
        random = memory.random;
    }
}

/// Hands a search and a list to `take` with a bad form in each kind of field of a sheet.
pub fn each_question_about_forms(seed: u64, take: &mut dyn FnMut(&CaseFiles, &Question)) {
    let mut random = Xorshift::seeded(seed.rotate_left(32));
    for _ in 0..BAD_FORM_CASES {
        let mut memory = Memory::new(random);
        let blocks = lay_blocks(&mut memory);
        let pages = lay_pages(&mut memory);
        let mut files = CaseFiles::taken_from(&mut memory);
        let mut cells = Cells::beside_tables(&memory);
        let ring = lay_ring(&mut files, &pages, &mut cells, &mut memory.random);
        let from = offset_about(blocks[0], files.image.len(), &mut memory.random);
        let list = Question::List {
            head: head_about(&ring, &pages, &mut memory.random),
            room: ring.nodes.len(),
        };
        ask_bad_forms(
            &mut memory,
            &mut files,
            &[Question::Block { from }, list],
            take,
        );
        random = memory.random;
    }
}

/// Each of these questions with each bad form in each kind of field.
pub fn ask_bad_forms(
    memory: &mut Memory,
    files: &mut CaseFiles,
    questions: &[Question],
    take: &mut dyn FnMut(&CaseFiles, &Question),
) {
    let fields = memory.sheet_fields();
    SHEET.each_bad_form(&fields, &mut memory.random, &mut |sheet, _| {
        files.sheet = sheet;
        questions.iter().for_each(|question| take(files, question));
    });
}

struct Questions<'t> {
    take: &'t mut dyn FnMut(&CaseFiles, &Question),
    left: u64,
    long_list: LongList,
}

impl Questions<'_> {
    fn ask(&mut self, files: &CaseFiles, question: &Question, random: &mut Xorshift) {
        if self.left == 0 {
            return;
        }
        self.left -= 1;
        if self.left % LONG_LIST_EVERY == 0 {
            self.long_list.ask(random, self.take);
        } else {
            (self.take)(files, question);
        }
    }

    fn ask_from(&mut self, files: &CaseFiles, blocks: &[usize], some: u64, random: &mut Xorshift) {
        for _ in 0..some {
            let block = blocks[random.below(blocks.len() as u64) as usize];
            let from = offset_about(block, files.image.len(), random);
            self.ask(files, &Question::Block { from }, random);
        }
    }

    fn ask_list(&mut self, files: &CaseFiles, head: u64, nodes: usize, random: &mut Xorshift) {
        let room = match random.below(10) {
            0 | 1 => nodes.saturating_sub(1),
            2 => 0,
            3 => nodes + 1,
            4 => random.below(nodes as u64 + 1) as usize,
            5 | 6 => nodes + random.below(20) as usize,
            _ => nodes,
        };
        self.ask(files, &Question::List { head, room }, random);
    }
}

/// Searches in the case as laid, then with damaged blocks, tables, sheet and lengths.
fn ask_blocks(memory: &mut Memory, questions: &mut Questions) {
    let blocks = lay_blocks(memory);
    let mut files = CaseFiles::taken_from(memory);
    questions.ask_from(&files, &blocks, 6, &mut memory.random);
    for _ in 0..2 {
        let block = blocks[memory.random.below(blocks.len() as u64) as usize];
        damage_block(&mut files, block, &mut memory.random);
        questions.ask_from(&files, &blocks, 1, &mut memory.random);
    }
    damage_tables(&mut files.image, &memory.put, &mut memory.random);
    questions.ask_from(&files, &blocks, 1, &mut memory.random);
    let good_sheet = files.sheet.clone();
    for _ in 0..2 {
        let fields = memory.sheet_fields();
        other_sheet(&mut files, memory, fields);
        questions.ask_from(&files, &blocks, 1, &mut memory.random);
    }
    if memory.random.below(4) > 0 {
        files.sheet = good_sheet;
    }
    for _ in 0..2 {
        damage_files(&mut files, &mut memory.random);
        questions.ask_from(&files, &blocks, 1, &mut memory.random);
    }
}

/// Two lists as laid, each link's faults, then damaged tables, sheet and lengths.
fn ask_lists(memory: &mut Memory, questions: &mut Questions) {
    let pages = lay_pages(memory);
    let mut files = CaseFiles::taken_from(memory);
    let mut cells = Cells::beside_tables(memory);
    let random = &mut memory.random;
    let rings = [(); 2].map(|()| lay_ring(&mut files, &pages, &mut cells, random));
    for ring in [&rings[0], &rings[0], &rings[0], &rings[1]] {
        let head = ring.after(random.below(ring.nodes.len() as u64 + 1) as usize);
        questions.ask_list(&files, head, ring.nodes.len(), random);
    }
    for _ in 0..10 {
        let changed = fault(&mut files, &rings, &pages, random);
        let head = head_about(&rings[0], &pages, random);
        questions.ask_list(&files, head, rings[0].nodes.len(), random);
        for (address, word) in changed.into_iter().rev() {
            put(&mut files, address, word);
        }
    }
    ask_about_zeros(&mut files, &pages, questions, random);
    rings.iter().for_each(|ring| ring.link_all(&mut files));
    ask_damaged(&mut files, memory, &rings[0], questions);
}

/// The list once more with damaged tables, then with a damaged sheet.
fn ask_damaged(files: &mut CaseFiles, memory: &mut Memory, ring: &Ring, questions: &mut Questions) {
    let nodes = ring.nodes.len();
    for _ in 0..2 {
        damage_tables(&mut files.image, &memory.put, &mut memory.random);
        questions.ask_list(files, ring.head, nodes, &mut memory.random);
    }
    let good_sheet = files.sheet.clone();
    for _ in 0..2 {
        let fields = memory.sheet_fields();
        other_sheet(files, memory, fields);
        let unaligned = memory.random.below(8) / 7;
        questions.ask_list(files, ring.head + unaligned, nodes, &mut memory.random);
    }
    if memory.random.below(4) > 0 {
        files.sheet = good_sheet;
    }
    for _ in 0..2 {
        damage_files(files, &mut memory.random);
        let unaligned = memory.random.below(8) / 7;
        questions.ask_list(files, ring.head + unaligned, nodes, &mut memory.random);
    }
}

/// The virtual pages of a case, by what can be read in them.
#[derive(Default)]
struct Pages {
    found: Vec<u64>,
    zeros: Vec<u64>,
    odd: Vec<u64>,
    /// Pages whose next page was laid as well, one of the two perhaps odd.
    pairs: Vec<u64>,
}

/// Lays found pages of each kind, pages of zeros, odd pages, and neighbours.
fn lay_pages(memory: &mut Memory) -> Pages {
    let mut pages = Pages::default();
    for _ in 0..4 + memory.random.below(5) {
        let prototypes = [0, 0, 0, 1, 2, 3][memory.random.below(6) as usize];
        let (page, home) = memory.lay(prototypes, None);
        match home {
            Home::Zeros => pages.zeros.push(page),
            Home::Image(_) | Home::Pagefile(_) => pages.found.push(page),
            Home::Nowhere => pages.odd.push(page),
        }
    }
    for _ in 0..3 {
        let prototypes = memory.random.below(5) as u32;
        let odd = memory.random.below(u64::from(prototypes) + 1) as u32;
        pages.odd.push(memory.lay(prototypes, Some(odd)).0);
    }
    pages.odd.push(memory.lay_reserved());
    let row = memory.lay_row();
    pages.found.extend(row);
    pages.pairs.extend(&row[..2]);
    for _ in 0..2 {
        let page = memory.fresh_page();
        lay_pair(memory, &mut pages, page);
    }
    if memory.random.below(2) == 0 {
        let edge = EDGE_PAGES[memory.random.below(4) as usize];
        lay_pair(memory, &mut pages, edge);
    }
    if memory.random.below(4) == 0 {
        let zeros = memory.software(0) | 0x80;
        memory.put_entry(0, LAST_LEVEL, zeros);
        pages.zeros.push(0);
    }
    pages
}

/// Lays a page and the next one, both found or one of them odd.
fn lay_pair(memory: &mut Memory, pages: &mut Pages, page: u64) {
    let which = memory.random.below(4);
    for (step, odd) in [which == 0, which == 1].into_iter().enumerate() {
        let page = canonical(page.wrapping_add(step as u64 * 4096));
        let entry = match odd {
            true => memory.odd_entry(),
            false => memory.found_entry().0,
        };
        memory.put_entry(page, LAST_LEVEL, entry);
        if !odd {
            pages.found.push(page);
        }
    }
    pages.pairs.push(page);
}

/// Links up to a few dozen nodes, mostly fewer, in pages that are found.
fn lay_ring(
    files: &mut CaseFiles,
    pages: &Pages,
    cells: &mut Cells,
    random: &mut Xorshift,
) -> Ring {
    let wanted = match random.below(8) {
        0 => 0,
        1 => 1,
        2 => 2,
        3 => random.below(40) as usize,
        _ => 1 + random.below(8) as usize,
    };
    let mut nodes = Vec::new();
    for _ in 0..2 * wanted + 8 {
        let node = node_in(pages, random);
        if nodes.len() <= wanted && cells.take(files, node) {
            nodes.push(node);
        }
    }
    let head = nodes.pop().unwrap_or(0);
    let ring = Ring { head, nodes };
    ring.link_all(files);
    ring
}

/// A place for a node, often across two pages.
fn node_in(pages: &Pages, random: &mut Xorshift) -> u64 {
    if random.below(4) == 0 {
        return pick(&pages.pairs, random) + 0xFF8;
    }
    let place = match random.below(6) {
        0 => 0,
        1 => 0xFF0,
        _ => 8 * random.below(511),
    };
    pick(&pages.found, random) + place
}

/// One of these pages, or the page at 0.
fn pick(pages: &[u64], random: &mut Xorshift) -> u64 {
    match pages.len() {
        0 => 0,
        length => pages[random.below(length as u64) as usize],
    }
}

/// Mostly the head itself, else what is no head.
fn head_about(ring: &Ring, pages: &Pages, random: &mut Xorshift) -> u64 {
    match random.below(24) {
        0 => ring.head + 1 + random.below(7),
        1 => pick(&pages.odd, random) + 1 + random.below(7),
        2 => pick(&pages.odd, random) + 8 * random.below(512),
        3 => pick(&pages.zeros, random) + 8 * random.below(512),
        4 => ring.head ^ 1 << (47 + random.below(17)),
        5 => ring.head ^ 1 << random.below(64),
        6 => pick(&EDGE_PAGES, random).wrapping_sub(8),
        _ => ring.head,
    }
}

/// Changes words of the first ring towards one fault; the addresses and the words before.
fn fault(
    files: &mut CaseFiles,
    rings: &[Ring; 2],
    pages: &Pages,
    random: &mut Xorshift,
) -> Vec<(u64, u64)> {
    let ring = &rings[0];
    let links = random.below(ring.nodes.len() as u64 + 1) as usize;
    let (node, next) = (ring.after(links), ring.after(links + 1));
    let any_node = rings[1].after(random.below(rings[1].nodes.len() as u64 + 1) as usize);
    let (forward, back) = match random.below(18) {
        0 => (next + 1 + random.below(7), None),
        1 => (next ^ 4, None),
        2 => (next, Some(node ^ 1 << random.below(64))),
        3 => (next, Some(any_node)),
        4 => (next, Some(ring.head)),
        5 => (any_node, None),
        6 => (any_node, Some(node)),
        7 => (ring.after(random.below(links as u64 + 1) as usize), None),
        8 => (node, Some(node)),
        9 => (random.next() & !7, None),
        10 => (at_edge(random), Some(node)),
        11 => (pick(&pages.zeros, random) + 8 * random.below(511), None),
        12 | 13 => (pick(&pages.pairs, random) + 0xFF8, Some(node)),
        _ => (pick(&pages.odd, random) + 8 * random.below(512), None),
    };
    let words = [(node, Some(forward)), (forward.wrapping_add(8), back)];
    let changes = words
        .into_iter()
        .filter_map(|(address, word)| Some((address, put(files, address, word?)?)));
    changes.collect()
}

/// The last places before the canonical edges, where the back word is past them.
fn at_edge(random: &mut Xorshift) -> u64 {
    [
        0xFFFF_FFFF_FFFF_FFF8,
        0x0000_7FFF_FFFF_FFF8,
        0xFFFF_7FFF_FFFF_FFF8,
        0xFFFF_7FFF_FFFF_FFF0,
    ][random.below(4) as usize]
}

/// Lists through pages of zeros, where each link reads as 0, and through the page at 0.
fn ask_about_zeros(
    files: &mut CaseFiles,
    pages: &Pages,
    questions: &mut Questions,
    random: &mut Xorshift,
) {
    let zeros = pick(&pages.zeros, random) + 8 * random.below(511);
    questions.ask_list(files, 0, 0, random);
    link(files, zeros, 0);
    link(files, 0, zeros);
    questions.ask_list(files, zeros, 1, random);
    questions.ask_list(files, 0, 1, random);
}

/// P11: a head that links to itself both ways.
pub const P11_HEAD: u64 = 0xB1_0018;

pub fn p11_files() -> CaseFiles {
    small_case(&[(0x3880, 0x6001), (0x5018, P11_HEAD), (0x5020, P11_HEAD)])
}
