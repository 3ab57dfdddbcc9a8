//! Blocks and lists in the first and last page of every run of many, and links into the gaps.

use crate::block_cases::lay_blocks_at_edges;
use crate::common::case_files::{damage_files, other_sheet, CaseFiles};
use crate::common::many_runs::{each_with_many_runs, Edges, ManyRuns};
use crate::common::memory::PAGE_BYTES;
use crate::common::random::Xorshift;
use crate::links::{put, Ring};
use crate::list_cases::{ask_bad_forms, Question};

/// Hands questions about the edges of every run to `take`, in memory of more than 32 runs, then with damaged sheets.
pub fn each_question_about_runs(seed: u64, take: &mut dyn FnMut(&CaseFiles, &Question)) {
    each_with_many_runs(seed, &mut |many| {
        let blocks = lay_blocks(many);
        let mut files = many.take_files();
        for (run, [first, last]) in many.runs.iter().zip(&blocks) {
            let page = run.image_pages[0] * PAGE_BYTES;
            for from in [page, first + 8, *last] {
                take(&files, &Question::Block { from: from as u64 });
            }
        }
        ask_lists(many, &mut files, take);
        ask_damaged(many, &mut files, take);
    });
}

/// The image offsets of the blocks in the first and the last page of each run.
fn lay_blocks(many: &mut ManyRuns) -> Vec<[usize; 2]> {
    let ManyRuns { memory, runs } = many;
    let blocks = runs.iter().map(|run| lay_blocks_at_edges(memory, run));
    blocks.collect()
}

/// For each run a list between its first and its last page, then with a link into a gap; then one list through all.
fn ask_lists(
    many: &mut ManyRuns,
    files: &mut CaseFiles,
    take: &mut dyn FnMut(&CaseFiles, &Question),
) {
    let random = &mut many.memory.random;
    let mut through_all = Vec::new();
    for run in &many.runs {
        let Ring { head, nodes } = lay_ring(run, files, random);
        let [before, .., after] = run.pages;
        let gap = [before, after][random.below(2) as usize];
        take(files, &Question::List { head, room: 1 });
        put(files, nodes[0], gap + 8 * random.below(511));
        take(files, &Question::List { head, room: 1 });
        through_all.extend([head, nodes[0]]);
    }
    let head = through_all.remove(0);
    let room = through_all.len();
    let ring = Ring {
        head,
        nodes: through_all,
    };
    ring.link_all(files);
    take(files, &Question::List { head, room });
}

/// A head in a run's first page and one node in its last.
fn lay_ring(run: &Edges, files: &mut CaseFiles, random: &mut Xorshift) -> Ring {
    let [_, first, last, _] = run.pages;
    // The two pages may be one.
    let ring = Ring {
        head: first + 8 * random.below(255),
        nodes: vec![last + 0x800 + 8 * random.below(255)],
    };
    ring.link_all(files);
    ring
}

/// The first run's block and list with other sheets, then with damaged files, then with bad forms.
fn ask_damaged(
    many: &mut ManyRuns,
    files: &mut CaseFiles,
    take: &mut dyn FnMut(&CaseFiles, &Question),
) {
    let random = &mut many.memory.random;
    let Ring { head, nodes } = lay_ring(&many.runs[0], files, random);
    let questions = [
        Question::Block { from: 0 },
        Question::List {
            head,
            room: nodes.len(),
        },
    ];
    let good_sheet = files.sheet.clone();
    for question in questions.iter().cycle().take(8) {
        let fields = many.memory.sheet_fields();
        other_sheet(files, &mut many.memory, fields);
        take(files, question);
    }
    files.sheet = good_sheet;
    damage_files(files, &mut many.memory.random);
    questions.iter().for_each(|question| take(files, question));
    ask_bad_forms(&mut many.memory, files, &questions, take);
}
