//! The case sheet: its fields, and its agreement with the two file lengths.

use super::number::{judge_limit, Fault, Numbers, Refusal, NUMBER_LIMIT, OUTSIDE_LIMITS};
use super::slip::Slip;

/// A run's gap, length or end is wrong.
pub const RUN_WRONG: Refusal = 13;
/// Bytes follow the last field.
pub const BYTES_AFTER_LAST_FIELD: Refusal = 14;
/// The image length is not the sum of the runs.
pub const IMAGE_LENGTH_WRONG: Refusal = 15;
/// The pagefile length is not a multiple of 4,096.
pub const PAGEFILE_LENGTH_WRONG: Refusal = 16;

pub const PAGE_BYTES: u64 = 4096;

/// The most runs that a sheet has.
pub const MOST_RUNS: u64 = 1000;

/// The modes of an address space: 64-bit, and the two 32-bit profiles of edition 2.
pub const FOUR_LEVEL: u64 = 0;
pub const PLAIN: u64 = 1;
pub const PAE: u64 = 2;

/// The last place of a directory in its page, in units of 32 bytes.
pub const LAST_PLACE: u64 = 127;

/// Frames that lie in the image one after another.
#[derive(Clone, Copy, PartialEq)]
pub struct Run {
    pub first_frame: u64,
    pub pages: u64,
}

impl Run {
    /// The frame behind the run's last one.
    pub fn end(&self) -> u64 {
        self.first_frame + self.pages
    }
}

/// What an accepted sheet says.
#[derive(Default)]
pub struct Case {
    pub directory_page: u64,
    pub mode: u64,
    /// Where the top table begins in the directory page, in units of 32 bytes.
    pub place: u64,
    pub runs: Vec<Run>,
}

impl Case {
    pub fn pages(&self) -> u64 {
        self.runs.iter().map(|run| run.pages).sum()
    }
}

/// The case, or the first fault of the sheet and the two lengths.
pub fn check_sheet(
    sheet: &[u8],
    image_length: u64,
    pagefile_length: u64,
    slip: Slip,
) -> Result<Case, Fault> {
    let mut numbers = Numbers::new(sheet, slip);
    let mut case = Case::default();
    read_fields(&mut numbers, &mut case, slip)?;
    let trailing = !numbers.at_end() && slip != Slip::TrailingTaken;
    let image_wrong = !image_length_agrees(case.pages(), image_length, slip);
    let pagefile_wrong = !pagefile_length_agrees(pagefile_length, slip);
    judge_after_fields(trailing, image_wrong, pagefile_wrong, slip)?;
    Ok(case)
}

/// What a sheet says by itself, whatever the lengths of the files; or its first fault.
pub fn read_sheet(sheet: &[u8], slip: Slip) -> Result<Case, Fault> {
    let mut numbers = Numbers::new(sheet, slip);
    let mut case = Case::default();
    read_fields(&mut numbers, &mut case, slip)?;
    match numbers.at_end() {
        true => Ok(case),
        false => Err(BYTES_AFTER_LAST_FIELD.into()),
    }
}

/// The bytes of all runs that stand before the sheet's first fault.
pub fn run_bytes_read(sheet: &[u8]) -> u64 {
    let mut numbers = Numbers::new(sheet, Slip::None);
    let mut case = Case::default();
    // The runs read before a fault stay in the case.
    let _ = read_fields(&mut numbers, &mut case, Slip::None);
    PAGE_BYTES * case.pages()
}

fn read_fields(numbers: &mut Numbers, case: &mut Case, slip: Slip) -> Result<(), Fault> {
    let edition = numbers.read()?;
    if slip != Slip::EditionJudgedAfterDirectory {
        judge_edition(edition, slip)?;
    }
    let has_mode = edition >= 2 && slip != Slip::EditionTwoReadAsOne;
    if has_mode && slip == Slip::ModeBeforeDirectory {
        read_mode_and_place(numbers, case, slip)?;
    }
    case.directory_page = match slip {
        Slip::DirectoryLimitDropped => numbers.read_unlimited()?,
        _ => numbers.read()?,
    };
    if slip == Slip::EditionJudgedAfterDirectory {
        judge_edition(edition, slip)?;
    }
    if has_mode && slip != Slip::ModeBeforeDirectory {
        read_mode_and_place(numbers, case, slip)?;
    }
    let run_count = match slip {
        Slip::CountSecondByteDropped => numbers.read()? % 128,
        _ => numbers.read()?,
    };
    if slip == Slip::PlaceJudgedAfterCount {
        judge_place(case, slip)?;
    }
    if slip != Slip::CountJudgedAfterRuns {
        judge_run_count(run_count, slip)?;
    }
    read_runs(numbers, run_count, &mut case.runs, slip)?;
    if slip == Slip::CountJudgedAfterRuns {
        judge_run_count(run_count, slip)?;
    }
    Ok(())
}

fn judge_edition(edition: u64, slip: Slip) -> Result<(), Refusal> {
    let known = match slip {
        Slip::EditionZeroTaken => edition <= 2,
        Slip::EditionTwoRefused => edition == 1,
        Slip::EditionThreeTaken => (1..=3).contains(&edition),
        _ => edition == 1 || edition == 2,
    };
    if !known {
        return Err(OUTSIDE_LIMITS);
    }
    Ok(())
}

/// The two fields that edition 2 has more than edition 1.
#[derive(Clone, Copy)]
enum Added {
    Mode,
    Place,
}

/// Each of them is judged as soon as it is read.
fn read_mode_and_place(numbers: &mut Numbers, case: &mut Case, slip: Slip) -> Result<(), Fault> {
    if slip == Slip::PlaceBeforeMode {
        case.place = read_added(numbers, Added::Place, slip)?;
    }
    let at_mode = numbers.position();
    case.mode = read_added(numbers, Added::Mode, slip)?;
    let mode = judge_mode(case.mode, slip).map_err(|refusal| match slip {
        Slip::PositionFor12OfMode => Fault {
            refusal,
            position: at_mode,
        },
        _ => refusal.into(),
    });
    if slip != Slip::ModeJudgedAfterPlace {
        mode?;
    }
    let at_place = numbers.position();
    if slip != Slip::PlaceBeforeMode {
        case.place = read_added(numbers, Added::Place, slip)?;
    }
    mode?;
    match judge_place(case, slip) {
        Err(_) if slip == Slip::PlaceJudgedAfterCount => Ok(()),
        Err(refusal) if slip == Slip::PositionFor12OfPlace => Err(Fault {
            refusal,
            position: at_place,
        }),
        verdict => Ok(verdict?),
    }
}

fn read_added(numbers: &mut Numbers, field: Added, slip: Slip) -> Result<u64, Fault> {
    use Added::{Mode, Place};
    let ended = numbers.at_end();
    let read = match (field, slip) {
        (Mode, Slip::ModeInAnyForm) | (Place, Slip::PlaceInAnyForm) => {
            numbers.read_with(Slip::LastGroupZeroTaken)
        }
        _ => numbers.read(),
    };
    read.map_err(|fault| match (field, slip) {
        (Mode, Slip::ModeInOneByte) | (Place, Slip::PlaceInOneByte) if !ended => {
            OUTSIDE_LIMITS.into()
        }
        (Mode, Slip::MissingModeIs12) | (Place, Slip::MissingPlaceIs12) if ended => {
            OUTSIDE_LIMITS.into()
        }
        (Mode, Slip::ModePositionDropped) | (Place, Slip::PlacePositionDropped) => {
            fault.refusal.into()
        }
        // The mode before it has one byte.
        (Place, Slip::PlacePositionOfMode) => Fault {
            position: fault.position.saturating_sub(1),
            ..fault
        },
        _ => fault,
    })
}

fn judge_mode(mode: u64, slip: Slip) -> Result<(), Refusal> {
    let allowed = match slip {
        Slip::ModeZeroTaken => FOUR_LEVEL..=PAE,
        Slip::ModeThreeTaken => PLAIN..=PAE + 1,
        _ => PLAIN..=PAE,
    };
    match allowed.contains(&mode) {
        true => Ok(()),
        false => Err(OUTSIDE_LIMITS),
    }
}

/// The directory fills its page unless the mode is PAE.
fn judge_place(case: &Case, slip: Slip) -> Result<(), Refusal> {
    let last = match (case.mode, slip) {
        (PAE.., Slip::PlaceOf128Taken) => LAST_PLACE + 1,
        (PAE.., Slip::PlaceOf127Refused) => LAST_PLACE - 1,
        (PAE.., Slip::PlaceRefusedInPae) => 0,
        (PAE.., _) => LAST_PLACE,
        (_, Slip::PlaceInPlainTaken) => LAST_PLACE,
        _ => 0,
    };
    match (case.place <= last, slip) {
        (true, _) => Ok(()),
        (false, Slip::PlaceIs13) => Err(RUN_WRONG),
        (false, _) => Err(OUTSIDE_LIMITS),
    }
}

fn judge_run_count(run_count: u64, slip: Slip) -> Result<(), Refusal> {
    let allowed = match slip {
        Slip::ZeroRunsTaken => 0..=MOST_RUNS,
        Slip::OldRunLimitKept => 1..=32,
        Slip::ThousandRunsRefused => 1..=MOST_RUNS - 1,
        Slip::ThousandAndOneRunsTaken => 1..=MOST_RUNS + 1,
        _ => 1..=MOST_RUNS,
    };
    if !allowed.contains(&run_count) {
        return Err(OUTSIDE_LIMITS);
    }
    Ok(())
}

fn read_runs(
    numbers: &mut Numbers,
    run_count: u64,
    runs: &mut Vec<Run>,
    slip: Slip,
) -> Result<(), Fault> {
    let mut verdicts = Ok(());
    for _ in 0..run_count {
        if slip == Slip::MissingRunsTaken && numbers.at_end() && !runs.is_empty() {
            break;
        }
        let before = runs.last().copied();
        let (gap, pages) = read_gap_and_length(numbers, before, slip)?;
        let run = Run {
            first_frame: first_frame(gap, before, slip),
            pages,
        };
        let verdict = judge_run(gap, run, before, slip);
        if slip == Slip::RunsJudgedAfterLastRun {
            verdicts = verdicts.and(verdict);
        } else {
            verdict?;
        }
        runs.push(run);
    }
    Ok(verdicts?)
}

fn read_gap_and_length(
    numbers: &mut Numbers,
    before: Option<Run>,
    slip: Slip,
) -> Result<(u64, u64), Fault> {
    let gap = match slip {
        Slip::GapLimitJudgedAfterLength => numbers.read_unlimited()?,
        _ => numbers.read()?,
    };
    if slip == Slip::GapZeroJudgedBeforeLength && gap == 0 && before.is_some() {
        return Err(RUN_WRONG.into());
    }
    if slip == Slip::StartJudgedBeforeLength && first_frame(gap, before, slip) >= NUMBER_LIMIT {
        return Err(RUN_WRONG.into());
    }
    let pages = numbers.read()?;
    if slip == Slip::GapLimitJudgedAfterLength {
        judge_limit(gap, slip)?;
    }
    Ok((gap, pages))
}

/// The gap counts from the end of the run before, the first from 0.
fn first_frame(gap: u64, before: Option<Run>, slip: Slip) -> u64 {
    let end_before = before.map_or(0, |run| run.end());
    match slip {
        Slip::GapDropped => end_before,
        Slip::GapFromZero => gap,
        Slip::GapFromStartOfRunBefore => before.map_or(0, |run| run.first_frame) + gap,
        _ => end_before + gap,
    }
}

/// 13 for a gap of 0 after the first run, a length of 0, or an end past page 2^36.
fn judge_run(gap: u64, run: Run, before: Option<Run>, slip: Slip) -> Result<(), Refusal> {
    let gap_wrong = match slip {
        Slip::GapZeroRefusedFirst => gap == 0,
        Slip::GapZeroTakenLater => false,
        _ => gap == 0 && before.is_some(),
    };
    let length_wrong = run.pages == 0 && slip != Slip::LengthZeroTaken;
    let highest_end = match slip {
        Slip::EndAtTopRefused => NUMBER_LIMIT - 1,
        Slip::EndPastTopTaken => NUMBER_LIMIT + 1,
        _ => NUMBER_LIMIT,
    };
    if gap_wrong || length_wrong || run.end() > highest_end {
        return Err(RUN_WRONG);
    }
    Ok(())
}

fn image_length_agrees(pages: u64, image_length: u64, slip: Slip) -> bool {
    let wanted = PAGE_BYTES * pages;
    match slip {
        Slip::ImageLengthRoundedDown => image_length / PAGE_BYTES == pages,
        Slip::ImageLengthIn32Bits => image_length as u32 == wanted as u32,
        Slip::LongerImageTaken => image_length >= wanted,
        Slip::SumIn32Bits => image_length == PAGE_BYTES * u64::from(pages as u32),
        _ => image_length == wanted,
    }
}

fn pagefile_length_agrees(pagefile_length: u64, slip: Slip) -> bool {
    match slip {
        Slip::PagefileUnjudged => true,
        Slip::PagefileHalfPageTaken => pagefile_length % (PAGE_BYTES / 2) == 0,
        _ => pagefile_length % PAGE_BYTES == 0,
    }
}

/// The first of 14, 15 and 16 that holds.
fn judge_after_fields(
    trailing: bool,
    image_wrong: bool,
    pagefile_wrong: bool,
    slip: Slip,
) -> Result<(), Refusal> {
    let mut faults = [
        (trailing, BYTES_AFTER_LAST_FIELD),
        (image_wrong, IMAGE_LENGTH_WRONG),
        (pagefile_wrong, PAGEFILE_LENGTH_WRONG),
    ];
    match slip {
        Slip::TrailingAfterImageLength => faults.swap(0, 1),
        Slip::TrailingAfterPagefileLength => faults.rotate_left(1),
        Slip::PagefileBeforeImage => faults.swap(1, 2),
        _ => {}
    }
    match faults.iter().find(|(holds, _)| *holds) {
        Some((_, refusal)) => Err(*refusal),
        None => Ok(()),
    }
}
