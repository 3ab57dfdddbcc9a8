//! What a case's sheet says in numbers, and the length that it asks of its image.

use super::number::{Fault, Refusal};
use super::sheet::{check_sheet, read_sheet, Case, BYTES_AFTER_LAST_FIELD, PAGE_BYTES};
use super::slip::Slip;

/// The buffer for the runs is too short.
const BUFFER_TOO_SHORT: Refusal = 53;
/// The number of a short buffer in the read call.
const READ_BUFFER_TOO_SHORT: Refusal = 45;

/// First frame, pages, image page.
pub const NUMBERS_A_RUN: usize = 3;

/// What the call on a case's runs says; their numbers are in the lent buffer.
pub struct CaseRead {
    pub number: u64,
    pub directory: u64,
    pub mode: u64,
    /// The directory's place in its page, in units of 32 bytes.
    pub place: u64,
    pub length: u64,
}

/// What the call on the image's length says.
pub struct Asked {
    pub number: u64,
    pub length: u64,
}

/// Writes three numbers a run into the front of the buffer, or none of them.
pub fn case_runs(
    sheet: &[u8],
    image_length: u64,
    pagefile_length: u64,
    buffer: &mut [u64],
    slip: Slip,
) -> CaseRead {
    if slip == Slip::RoomBeforeSheet && buffer.len() < NUMBERS_A_RUN {
        return refused(BUFFER_TOO_SHORT.into(), None, slip);
    }
    let lengths = match slip {
        Slip::FileLengthsSwapped => (pagefile_length, image_length),
        _ => (image_length, pagefile_length),
    };
    let alone = read_sheet(sheet, slip).ok();
    let short_alone = alone
        .as_ref()
        .is_some_and(|case| !has_room(case, buffer, slip));
    if slip == Slip::RoomBeforeFileLengths && short_alone {
        return refused(BUFFER_TOO_SHORT.into(), None, slip);
    }
    let case = match check_sheet(sheet, lengths.0, lengths.1, slip) {
        Ok(case) => case,
        Err(fault) => return refused(fault, alone.as_ref(), slip),
    };
    if slip == Slip::RunsWrittenBeforeRefusal {
        write_runs(&case, buffer, slip);
    }
    if !has_room(&case, buffer, slip) {
        let refusal = match slip {
            Slip::RunRoomIs45 => READ_BUFFER_TOO_SHORT,
            _ => BUFFER_TOO_SHORT,
        };
        return refused(refusal.into(), Some(&case), slip);
    }
    write_runs(&case, buffer, slip);
    told(&case, slip)
}

fn told(case: &Case, slip: Slip) -> CaseRead {
    CaseRead {
        number: 0,
        directory: match slip {
            Slip::DirectoryDropped => 0,
            _ => case.directory_page,
        },
        mode: match slip {
            Slip::ModeDropped => 0,
            Slip::ModeAndPlaceSwapped => case.place,
            _ => case.mode,
        },
        place: match slip {
            Slip::PlaceDropped => 0,
            Slip::PlaceInBytes => 32 * case.place,
            Slip::ModeAndPlaceSwapped => case.mode,
            _ => case.place,
        },
        length: match slip {
            Slip::RunLengthInNumbers => NUMBERS_A_RUN * case.runs.len(),
            _ => case.runs.len(),
        } as u64,
    }
}

/// Of a refused case only a slip tells more than the fault.
fn refused(fault: Fault, case: Option<&Case>, slip: Slip) -> CaseRead {
    CaseRead {
        number: fault.number(),
        directory: match (case, slip) {
            (Some(case), Slip::DirectoryOnRefusal) => case.directory_page,
            (_, Slip::CasePositionAsDirectory) => fault.position,
            _ => 0,
        },
        mode: match (case, slip) {
            (Some(case), Slip::ModeOnRefusal) => case.mode,
            _ => 0,
        },
        place: match (case, slip) {
            (Some(case), Slip::PlaceOnRefusal) => case.place,
            (_, Slip::CasePositionAsPlace) => fault.position,
            _ => 0,
        },
        length: match (case, slip) {
            (Some(case), Slip::RunLengthOnRefusal) => case.runs.len() as u64,
            (
                _,
                Slip::CasePositionDropped
                | Slip::CasePositionAsDirectory
                | Slip::CasePositionAsPlace,
            ) => 0,
            _ => fault.position,
        },
    }
}

fn has_room(case: &Case, buffer: &[u64], slip: Slip) -> bool {
    let wanted = NUMBERS_A_RUN * case.runs.len();
    match slip {
        Slip::ExactRunRoomRefused => wanted < buffer.len(),
        Slip::RunRoomOneShortTaken => wanted <= buffer.len() + 1,
        Slip::TwoNumbersARunEnough => 2 * case.runs.len() <= buffer.len(),
        _ => wanted <= buffer.len(),
    }
}

fn write_runs(case: &Case, buffer: &mut [u64], slip: Slip) {
    let mut numbers = Vec::new();
    let mut pages_before = 0;
    let mut runs = case.runs.clone();
    match slip {
        Slip::LastRunDropped => drop(runs.pop()),
        Slip::RunsNotInOrder => runs.reverse(),
        _ => {}
    }
    for run in &runs {
        numbers.push(match slip {
            Slip::FirstFrameInBytes => PAGE_BYTES * run.first_frame,
            _ => run.first_frame,
        });
        numbers.push(match slip {
            Slip::EndForPages => run.end(),
            _ => run.pages,
        });
        numbers.push(match slip {
            Slip::ImagePageNotSummed => 0,
            Slip::ImagePageWithOwnPages => pages_before + run.pages,
            Slip::ImagePageWithGaps => run.first_frame,
            Slip::ImagePageInBytes => PAGE_BYTES * pages_before,
            _ => pages_before,
        });
        pages_before += run.pages;
    }
    // Only a slip has more numbers than there is room for.
    let held = numbers.len().min(buffer.len());
    buffer[..held].copy_from_slice(&numbers[..held]);
    if slip == Slip::RunsClearRest {
        buffer[held..].fill(0);
    }
}

/// The bytes that the image must have, or the sheet's own fault.
pub fn image_length(sheet: &[u8], slip: Slip) -> Asked {
    let read = match read_sheet(sheet, slip) {
        Err(fault)
            if slip == Slip::AskedTrailingTaken && fault.refusal == BYTES_AFTER_LAST_FIELD =>
        {
            Ok(Case::default())
        }
        read => read,
    };
    match read {
        Err(fault) => Asked {
            number: fault.number(),
            length: match slip {
                Slip::AskedLengthOnRefusal => PAGE_BYTES,
                Slip::AskedPositionDropped => 0,
                _ => fault.position,
            },
        },
        Ok(case) => Asked {
            number: 0,
            length: asked_length(&case, slip),
        },
    }
}

fn asked_length(case: &Case, slip: Slip) -> u64 {
    let pages = match slip {
        Slip::AskedLengthOfFirstRun => case.runs.first().map_or(0, |run| run.pages),
        Slip::AskedLengthWithGaps => case.runs.last().map_or(0, |run| run.end()),
        _ => case.pages(),
    };
    match slip {
        Slip::AskedLengthInPages => pages,
        Slip::AskedLengthIn32Bits => u64::from((PAGE_BYTES * pages) as u32),
        _ => PAGE_BYTES * pages,
    }
}
