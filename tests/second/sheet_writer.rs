//! A sheet written from its directory page, mode, place, and the starts and lengths of its runs.

use super::lists::Written;
use super::number::{append, Refusal, NUMBER_LIMIT, OUTSIDE_LIMITS};
use super::sheet::{Run, FOUR_LEVEL, LAST_PLACE, PAE, PLAIN, RUN_WRONG};
use super::slip::Slip;

/// The sheet buffer is too short.
const BUFFER_TOO_SHORT: Refusal = 17;

/// That of mode 0.
const EDITION: u64 = 1;
/// That with a mode and a place.
const EDITION_WITH_MODE: u64 = 2;

/// The most runs that can be given.
pub const MOST_GIVEN: usize = 1000;

/// What a sheet is written of; directory page, starts and lengths count pages.
#[derive(Clone, Copy)]
pub struct Given<'a> {
    pub directory_page: u64,
    pub mode: u64,
    /// The directory's place in its page, in units of 32 bytes.
    pub place: u64,
    pub starts: &'a [u64],
    pub lengths: &'a [u64],
}

/// Makes the enum of all causes, and the list of them.
macro_rules! causes {
    ($($(#[$about:meta])* $name:ident: $refusal:ident)*) => {
        /// Why a sheet is not written whatever the room, in the paper's order.
        #[derive(Clone, Copy, PartialEq, Eq, Debug)]
        pub enum Cause {
            $($(#[$about])* $name,)*
        }
        const CAUSES: &[Cause] = &[$(Cause::$name),*];
        impl Cause {
            fn usual_refusal(self) -> Refusal {
                match self {
                    $(Cause::$name => $refusal,)*
                }
            }
        }
    };
}

causes! {
    /// The directory page is 2^36 or more.
    DirectoryTooLarge: OUTSIDE_LIMITS
    /// The mode is none of the three.
    ModeTooLarge: OUTSIDE_LIMITS
    /// The place is past the page's end.
    PlaceTooLarge: OUTSIDE_LIMITS
    /// A place is given, and the mode is not PAE.
    PlaceWithoutPae: OUTSIDE_LIMITS
    /// A start is 2^36 or more.
    StartTooLarge: OUTSIDE_LIMITS
    /// A length is 2^36 or more.
    LengthTooLarge: OUTSIDE_LIMITS
    /// There are more starts than lengths, or fewer.
    CountsDiffer: OUTSIDE_LIMITS
    /// No run is given.
    NoRuns: OUTSIDE_LIMITS
    /// More than 1,000 runs are given, whatever becomes of them.
    TooManyRuns: OUTSIDE_LIMITS
    /// A length is 0.
    LengthZero: RUN_WRONG
    /// A start is before the end of the run given before it.
    StartBeforeEnd: RUN_WRONG
    /// A run ends past page 2^36.
    EndPastTop: RUN_WRONG
    /// A joined run has 2^36 pages.
    WholeSpace: RUN_WRONG
}

impl Cause {
    pub fn refusal(self, slip: Slip) -> Refusal {
        match (self, slip) {
            (Cause::CountsDiffer, Slip::CountsDifferIs13) => RUN_WRONG,
            (Cause::LengthZero, Slip::LengthZeroIs12) => OUTSIDE_LIMITS,
            (Cause::WholeSpace, Slip::WholeSpaceIs12) => OUTSIDE_LIMITS,
            (Cause::ModeTooLarge, Slip::GivenModeIs13) => RUN_WRONG,
            (Cause::PlaceTooLarge | Cause::PlaceWithoutPae, Slip::GivenPlaceIs13) => RUN_WRONG,
            _ => self.usual_refusal(),
        }
    }

    /// Whether it holds of what is given, and of the runs in it.
    fn holds(self, given: &Given, runs: &[Run], slip: Slip) -> bool {
        let mut pairs = runs.iter().zip(runs.iter().skip(1));
        match self {
            Cause::DirectoryTooLarge => is_directory_too_large(given.directory_page, slip),
            Cause::ModeTooLarge => is_mode_too_large(given.mode, slip),
            Cause::PlaceTooLarge => is_place_too_large(given.place, slip),
            Cause::PlaceWithoutPae => is_place_without_pae(given, slip),
            Cause::StartTooLarge => is_start_too_large(given.starts, slip),
            Cause::LengthTooLarge => is_length_too_large(given.lengths, slip),
            Cause::CountsDiffer => do_counts_differ(given, slip),
            Cause::NoRuns => counts(given).contains(&0) && slip != Slip::NoRunsTaken,
            Cause::TooManyRuns => are_too_many(given, runs, slip),
            Cause::LengthZero => runs.iter().any(|run| is_empty(run, slip)),
            Cause::StartBeforeEnd => pairs.any(|(before, run)| is_early(before, run, slip)),
            Cause::EndPastTop => runs.iter().any(|run| is_past_top(run, slip)),
            Cause::WholeSpace => joined(runs, slip).iter().any(|run| is_whole(run, slip)),
        }
    }
}

/// The causes that hold of the refusal that comes first: those of 12 or, if there are none, those of 13.
pub fn causes_of(given: &Given, slip: Slip) -> Vec<Cause> {
    let mut order = [OUTSIDE_LIMITS, RUN_WRONG];
    if slip == Slip::ThirteenBeforeTwelve {
        order.reverse();
    }
    let runs = runs_of(given, slip);
    let of_refusal = |refusal: Refusal| -> Vec<Cause> {
        let mut causes = CAUSES.to_vec();
        causes.retain(|cause| cause.refusal(slip) == refusal && cause.holds(given, &runs, slip));
        causes
    };
    let found = of_refusal(order[0]);
    match found.is_empty() {
        true => of_refusal(order[1]),
        false => found,
    }
}

fn counts(given: &Given) -> [usize; 2] {
    [given.starts.len(), given.lengths.len()]
}

fn is_directory_too_large(number: u64, slip: Slip) -> bool {
    match slip {
        Slip::DirectoryUnlimited => false,
        Slip::DirectoryOf2To36Taken => number > NUMBER_LIMIT,
        Slip::LargestDirectoryRefused => number >= NUMBER_LIMIT - 1,
        _ => number >= NUMBER_LIMIT,
    }
}

fn is_mode_too_large(mode: u64, slip: Slip) -> bool {
    match slip {
        Slip::GivenModeUnlimited => false,
        Slip::GivenModeThreeTaken => mode > PAE + 1,
        Slip::GivenPaeRefused => mode >= PAE,
        _ => mode > PAE,
    }
}

fn is_place_too_large(place: u64, slip: Slip) -> bool {
    match slip {
        Slip::GivenPlaceUnlimited => false,
        Slip::GivenPlaceOf128Taken => place > LAST_PLACE + 1,
        Slip::GivenPlaceOf127Refused => place >= LAST_PLACE,
        _ => place > LAST_PLACE,
    }
}

fn is_place_without_pae(given: &Given, slip: Slip) -> bool {
    let without = match slip {
        Slip::GivenPlaceInPlainTaken => given.mode == FOUR_LEVEL,
        Slip::GivenPlaceInModeZeroTaken => given.mode == PLAIN,
        _ => given.mode == FOUR_LEVEL || given.mode == PLAIN,
    };
    without && given.place != 0
}

fn is_start_too_large(starts: &[u64], slip: Slip) -> bool {
    let judged = match slip {
        Slip::StartsUnlimited => &[],
        Slip::LastStartUnlimited => &starts[..starts.len().saturating_sub(1)],
        _ => starts,
    };
    judged.iter().any(|start| match slip {
        Slip::StartOf2To36Taken => *start > NUMBER_LIMIT,
        Slip::LargestStartRefused => *start >= NUMBER_LIMIT - 1,
        _ => *start >= NUMBER_LIMIT,
    })
}

fn is_length_too_large(lengths: &[u64], slip: Slip) -> bool {
    let judged = match slip {
        Slip::LengthsUnlimited => &[],
        Slip::LastLengthUnlimited => &lengths[..lengths.len().saturating_sub(1)],
        _ => lengths,
    };
    judged.iter().any(|length| match slip {
        Slip::LengthOf2To36Taken => *length > NUMBER_LIMIT,
        Slip::LargestLengthRefused => *length >= NUMBER_LIMIT - 1,
        _ => *length >= NUMBER_LIMIT,
    })
}

fn do_counts_differ(given: &Given, slip: Slip) -> bool {
    let [starts, lengths] = counts(given);
    match slip {
        Slip::CountsDifferTaken => false,
        Slip::MoreStartsTaken => starts < lengths,
        Slip::MoreLengthsTaken => starts > lengths,
        _ => starts != lengths,
    }
}

fn are_too_many(given: &Given, runs: &[Run], slip: Slip) -> bool {
    let most = match slip {
        Slip::GivenCountUnlimited => usize::MAX,
        Slip::ThousandGivenRefused => MOST_GIVEN - 1,
        Slip::ThousandAndOneGivenTaken => MOST_GIVEN + 1,
        Slip::ThirtyTwoGivenAtMost => 32,
        _ => MOST_GIVEN,
    };
    match slip {
        Slip::JoinedRunsLimited => joined(runs, slip).len() > most,
        _ => counts(given).iter().any(|count| *count > most),
    }
}

fn is_empty(run: &Run, slip: Slip) -> bool {
    run.pages == 0 && slip != Slip::EmptyRunWritten
}

/// Whether a run starts before the end of the one before it.
fn is_early(before: &Run, run: &Run, slip: Slip) -> bool {
    match slip {
        Slip::StartOnePageEarlyTaken => run.first_frame.saturating_add(1) < end_of(before),
        Slip::OverlapWritten | Slip::OverlapJoined => run.first_frame < before.first_frame,
        Slip::StartUnjudged => false,
        Slip::TouchingRefused => run.first_frame <= end_of(before),
        _ => run.first_frame < end_of(before),
    }
}

fn is_past_top(run: &Run, slip: Slip) -> bool {
    let highest_end = match slip {
        Slip::GivenEndUnjudged => u64::MAX,
        Slip::GivenEndOnePastTopTaken => NUMBER_LIMIT + 1,
        Slip::GivenEndAtTopRefused => NUMBER_LIMIT - 1,
        _ => NUMBER_LIMIT,
    };
    end_of(run) > highest_end
}

fn is_whole(joined_run: &Run, slip: Slip) -> bool {
    match slip {
        Slip::WholeSpaceWritten => false,
        Slip::NearlyWholeSpaceRefused => joined_run.pages >= NUMBER_LIMIT - 1,
        _ => joined_run.pages == NUMBER_LIMIT,
    }
}

/// The frame behind a run's last one, of any numbers.
pub fn end_of(run: &Run) -> u64 {
    run.first_frame.saturating_add(run.pages)
}

/// The runs as they are given, as many as have a start and a length.
fn runs_of(given: &Given, slip: Slip) -> Vec<Run> {
    let pairs = given.starts.iter().zip(given.lengths);
    let mut runs: Vec<Run> = pairs
        .map(|(start, length)| Run {
            first_frame: *start,
            pages: *length,
        })
        .collect();
    match slip {
        Slip::EmptyRunLeftOut => runs.retain(|run| run.pages > 0),
        Slip::RunsSorted => runs.sort_by_key(|run| run.first_frame),
        _ => {}
    }
    runs
}

/// The runs with those that touch as one.
pub fn joined_runs(given: &Given) -> Vec<Run> {
    joined(&runs_of(given, Slip::None), Slip::None)
}

fn joined(runs: &[Run], slip: Slip) -> Vec<Run> {
    let mut joined: Vec<Run> = Vec::new();
    let mut joined_before = false;
    for run in runs {
        let is_kept_apart = slip == Slip::TwoJoinedAtMost && joined_before;
        let touches_open = |open| !is_kept_apart && touches(open, run, slip);
        let joins = joined.last().is_some_and(touches_open);
        match joined.last_mut() {
            Some(open) if joins => open.pages = joined_pages(open, run, slip),
            _ => joined.push(*run),
        }
        joined_before = joins;
    }
    joined
}

fn touches(open: &Run, run: &Run, slip: Slip) -> bool {
    match slip {
        Slip::TouchingWrittenApart => false,
        Slip::PageApartJoined => run.first_frame.wrapping_sub(end_of(open)) <= 1,
        Slip::OverlapJoined => run.first_frame <= end_of(open),
        _ => run.first_frame == end_of(open),
    }
}

fn joined_pages(open: &Run, run: &Run, slip: Slip) -> u64 {
    match slip {
        Slip::JoinedLengthOfFirst => open.pages,
        Slip::JoinedLengthOfLast => run.pages,
        Slip::OverlapJoined => end_of(open).max(end_of(run)) - open.first_frame,
        _ => end_of(run).wrapping_sub(open.first_frame),
    }
}

/// The header, number of joined runs, then the gap and length of each; of any numbers, right or wrong.
pub fn sheet_bytes(given: &Given, slip: Slip) -> Vec<u8> {
    let runs = joined(&runs_of(given, slip), slip);
    let count = match slip {
        Slip::JoinedCountedTwice => given.starts.len(),
        Slip::RunAtZeroUncounted => runs.iter().filter(|run| run.first_frame > 0).count(),
        Slip::CountOfLastByte => runs.len() % 128,
        _ => runs.len(),
    };
    let mut header = header(given, slip);
    match slip {
        Slip::CountBeforeDirectory => header.insert(1, count as u64),
        _ => header.push(count as u64),
    }
    let written = match slip {
        Slip::LastRunLeftOut => &runs[..runs.len().saturating_sub(1)],
        _ => &runs[..],
    };
    let mut bytes = Vec::new();
    for number in header.into_iter().chain(run_fields(written, slip)) {
        append_number(number, &mut bytes, slip);
    }
    bytes
}

/// Edition 1 and the directory page for mode 0; else edition 2, the directory page, mode and place.
fn header(given: &Given, slip: Slip) -> Vec<u64> {
    let Given {
        directory_page,
        mode,
        place,
        ..
    } = *given;
    let has_mode = mode != FOUR_LEVEL || slip == Slip::EditionTwoForModeZero;
    match slip {
        Slip::EditionLeftOut if has_mode => vec![directory_page, mode, place],
        Slip::EditionLeftOut => vec![directory_page],
        Slip::EditionTwoWritten if !has_mode => vec![EDITION_WITH_MODE, directory_page],
        _ if !has_mode => vec![EDITION, directory_page],
        Slip::EditionOneForModes => vec![EDITION, directory_page, mode, place],
        Slip::ModeLeftOut => vec![EDITION_WITH_MODE, directory_page, place],
        Slip::PlaceLeftOut => vec![EDITION_WITH_MODE, directory_page, mode],
        Slip::ModeWrittenFirst => vec![EDITION_WITH_MODE, mode, place, directory_page],
        Slip::PlaceWrittenFirst => vec![EDITION_WITH_MODE, directory_page, place, mode],
        Slip::PlaceWrittenInBytes => {
            let bytes = place.wrapping_mul(32);
            vec![EDITION_WITH_MODE, directory_page, mode, bytes]
        }
        _ => vec![EDITION_WITH_MODE, directory_page, mode, place],
    }
}

/// The gap from the end of the run before, the first from 0, and the length of each run.
fn run_fields(runs: &[Run], slip: Slip) -> Vec<u64> {
    let mut fields = Vec::new();
    let mut before = Run {
        first_frame: 0,
        pages: 0,
    };
    for run in runs {
        let gap = match slip {
            Slip::StartWrittenForGap => run.first_frame,
            Slip::GapFromStartBefore => run.first_frame.wrapping_sub(before.first_frame),
            _ => run.first_frame.wrapping_sub(end_of(&before)),
        };
        fields.extend(match slip {
            Slip::LengthBeforeGap => [run.pages, gap],
            Slip::EndWrittenForLength => [gap, end_of(run)],
            _ => [gap, run.pages],
        });
        before = *run;
    }
    fields
}

fn append_number(number: u64, bytes: &mut Vec<u8>, slip: Slip) {
    let start = bytes.len();
    match slip {
        Slip::SixthGroupLost => append(number % (1 << 35), bytes),
        _ => append(number, bytes),
    }
    match slip {
        Slip::NeedlessGroupWritten => {
            *bytes.last_mut().expect("a number has a group") |= 0x80;
            bytes.push(0);
        }
        Slip::HighestGroupFirstWritten => bytes[start..].reverse(),
        _ => {}
    }
}

/// Writes the sheet into the front of the buffer, or nothing at all.
pub fn write_sheet(given: &Given, buffer: &mut [u8], slip: Slip) -> Written {
    let bytes = sheet_bytes(given, slip);
    let is_short = is_room_short(given, &bytes, buffer.len(), slip);
    let verdict = judge(given, is_short, slip);
    hand_over(&bytes, verdict, buffer, slip)
}

fn is_room_short(given: &Given, bytes: &[u8], room: usize, slip: Slip) -> bool {
    match slip {
        Slip::SheetRoomUnjudged => false,
        Slip::SheetRoomExactRefused => bytes.len() >= room,
        Slip::SheetRoomShortByOneTaken => bytes.len() > room + 1,
        Slip::SheetRoomOfRunsApart => sheet_bytes(given, Slip::TouchingWrittenApart).len() > room,
        Slip::SheetRoomForLongest => 9 + 12 * given.starts.len() > room,
        Slip::SheetRoomOfEditionOne => {
            let mode_zero = Given {
                mode: FOUR_LEVEL,
                place: 0,
                ..*given
            };
            sheet_bytes(&mode_zero, slip).len() > room
        }
        _ => bytes.len() > room,
    }
}

/// 12, then 13, then 17.
fn judge(given: &Given, is_short: bool, slip: Slip) -> Result<(), Refusal> {
    let cause = match slip {
        Slip::FaultsRunByRun => first_cause_by_run(given),
        _ => causes_of(given, slip).first().copied(),
    };
    let refusal = cause.map(|cause| cause.refusal(slip));
    match (refusal, slip) {
        (Some(_), Slip::SeventeenBeforeTwelve) if is_short => Err(BUFFER_TOO_SHORT),
        (Some(RUN_WRONG), Slip::SeventeenBeforeThirteen) if is_short => Err(BUFFER_TOO_SHORT),
        (Some(refusal), _) => Err(refusal),
        (None, _) if is_short => Err(BUFFER_TOO_SHORT),
        (None, _) => Ok(()),
    }
}

/// For a slip: the first fault of one run after the other, each beside the one before it.
fn first_cause_by_run(given: &Given) -> Option<Cause> {
    let causes = causes_of(given, Slip::None);
    let of_lists = [Cause::CountsDiffer, Cause::NoRuns, Cause::TooManyRuns];
    if causes.iter().any(|cause| of_lists.contains(cause)) {
        return causes.first().copied();
    }
    let fault_of_run = |run: usize| {
        let pair = run.saturating_sub(1)..run + 1;
        let of_pair = Given {
            starts: &given.starts[pair.clone()],
            lengths: &given.lengths[pair],
            ..*given
        };
        causes_of(&of_pair, Slip::None).first().copied()
    };
    let by_run = (0..given.starts.len()).find_map(fault_of_run);
    by_run.or(causes.first().copied())
}

/// Writes the bytes and their number, or only names the refusal.
fn hand_over(bytes: &[u8], verdict: Result<(), Refusal>, buffer: &mut [u8], slip: Slip) -> Written {
    let writes = match slip {
        Slip::SheetWrittenBeforeJudging => true,
        Slip::SheetWrittenBeforeRoom => verdict.is_ok() || verdict == Err(BUFFER_TOO_SHORT),
        _ => verdict.is_ok(),
    };
    // Only a slip hands over more bytes than there is room for.
    let held = bytes.len().min(buffer.len());
    if writes {
        buffer[..held].copy_from_slice(&bytes[..held]);
    }
    if verdict.is_ok() && slip == Slip::SheetClearsRest {
        buffer[held..].fill(0);
    }
    let length = match slip {
        Slip::SheetLengthOnRefusal => bytes.len(),
        _ if verdict.is_err() => 0,
        Slip::SheetLengthOfBuffer => buffer.len(),
        _ => bytes.len(),
    };
    Written {
        number: verdict.err().map_or(0, u64::from),
        length: length as u64,
    }
}
