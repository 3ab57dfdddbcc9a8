//! What the cases of the writing test have in them, each thing to be met often enough.

use crate::common::print::with_commas;
use crate::common::tally::LEAST_TIMES;
use crate::second::number::NUMBER_LIMIT;
use crate::second::sheet::{Run, FOUR_LEVEL, LAST_PLACE, PAE, PLAIN, RUN_WRONG};
use crate::second::sheet_writer::{
    causes_of, end_of, joined_runs, sheet_bytes, Cause, Given, MOST_GIVEN,
};
use crate::second::slip::Slip;

/// Makes the enum of all things, and the list of them.
macro_rules! things {
    ($($name:ident)*) => {
        #[derive(Clone, Copy, Debug)]
        enum Thing {
            $($name,)*
        }
        const THINGS: &[Thing] = &[$(Thing::$name),*];
    };
}

things! {
    // What is 12 for one cause alone.
    DirectoryTooLargeAlone
    DirectoryOf2To36Alone
    DirectoryOf64BitsAlone
    ModeTooLargeAlone
    ModeThreeAlone
    ModeOf64BitsAlone
    PlaceTooLargeAlone
    PlaceOf128Alone
    PlaceOf64BitsAlone
    PlaceInModeZeroAlone
    PlaceInPlainAlone
    StartTooLargeAlone
    StartOf2To36Alone
    StartOf64BitsAlone
    LastStartTooLargeAlone
    LengthTooLargeAlone
    LengthOf2To36Alone
    LengthOf64BitsAlone
    LastLengthTooLargeAlone
    CountsDifferAlone
    OneStartMoreAlone
    OneLengthMoreAlone
    NoRunsAlone
    TooManyRunsAlone
    TooManyRunsOfOneJoinedAlone
    // What is 13 for one cause alone.
    LengthZeroAlone
    StartBeforeEndAlone
    StartOnePageEarlyAlone
    StartBeforeStartAlone
    EndPastTopAlone
    EndOnePastTopAlone
    WholeSpaceAlone
    // What is refused for more than one reason.
    ThirteenFirstTwelveLast
    TwelveAndRoomShort
    ThirteenAndRoomShort
    // What has a sheet.
    LargestDirectory
    ModeZero
    ModePlain
    ModePae
    PlaceZeroInPae
    LargestPlace
    LargestStart
    LargestLength
    LargestLengthJoined
    EndAtTop
    FirstRunAtZero
    OneRun
    Runs999
    Runs1000
    TwoJoined
    ThreeJoined
    SomeJoined
    ThousandJoined
    ThousandApart
    CountInTwoBytes
    GapOfOnePage
    NoRoom
    RoomShortByOne
    RoomExact
    RoomLonger
    RoomForJoinedOnly
}

/// What is met of numbers of one kind: one that is too large, the least of these, the largest.
type OfNumbers = [Thing; 3];

const OF_DIRECTORY: OfNumbers = [
    Thing::DirectoryTooLargeAlone,
    Thing::DirectoryOf2To36Alone,
    Thing::DirectoryOf64BitsAlone,
];
const OF_STARTS: OfNumbers = [
    Thing::StartTooLargeAlone,
    Thing::StartOf2To36Alone,
    Thing::StartOf64BitsAlone,
];
const OF_LENGTHS: OfNumbers = [
    Thing::LengthTooLargeAlone,
    Thing::LengthOf2To36Alone,
    Thing::LengthOf64BitsAlone,
];

/// How often each thing was met.
pub struct Met {
    times: [u64; THINGS.len()],
}

impl Met {
    pub fn new() -> Self {
        Met {
            times: [0; THINGS.len()],
        }
    }

    fn note(&mut self, thing: Thing, is_met: bool) {
        self.times[thing as usize] += u64::from(is_met);
    }

    /// Looks at what is given, and at the room for its sheet.
    pub fn look(&mut self, given: &Given, sheet_length: usize, room: usize) {
        let causes = causes_of(given, Slip::None);
        let is_short = sheet_length > room;
        if let [cause] = causes[..] {
            self.look_at_numbers(given, cause);
            self.look_at_lists(given, cause);
            self.look_at_runs(given, cause);
        }
        match causes.first().map(|cause| cause.refusal(Slip::None)) {
            None => {
                self.look_at_room(given, sheet_length, room);
                self.look_at_good(given);
            }
            Some(RUN_WRONG) => self.note(Thing::ThirteenAndRoomShort, is_short),
            Some(_) => self.note(Thing::TwelveAndRoomShort, is_short),
        }
    }

    /// What is 12 for numbers of one kind alone.
    fn look_at_numbers(&mut self, given: &Given, cause: Cause) {
        self.look_at_mode(given, cause);
        let (numbers, [too_large, least, largest]) = match cause {
            Cause::DirectoryTooLarge => (&[given.directory_page][..], OF_DIRECTORY),
            Cause::StartTooLarge => (given.starts, OF_STARTS),
            Cause::LengthTooLarge => (given.lengths, OF_LENGTHS),
            _ => return,
        };
        self.note(too_large, true);
        self.note(least, numbers.contains(&NUMBER_LIMIT));
        self.note(largest, numbers.contains(&u64::MAX));
        let is_last = |of: Cause| cause == of && numbers.last() >= Some(&NUMBER_LIMIT);
        let [is_last_start, is_last_length] =
            [Cause::StartTooLarge, Cause::LengthTooLarge].map(is_last);
        let is_13_first = given.lengths.first() == Some(&0);
        self.note(Thing::LastStartTooLargeAlone, is_last_start);
        self.note(Thing::LastLengthTooLargeAlone, is_last_length);
        self.note(
            Thing::ThirteenFirstTwelveLast,
            is_13_first && (is_last_start || is_last_length),
        );
    }

    /// What is 12 for mode or place alone.
    fn look_at_mode(&mut self, given: &Given, cause: Cause) {
        let Given { mode, place, .. } = *given;
        let of_mode = cause == Cause::ModeTooLarge;
        let of_place = cause == Cause::PlaceTooLarge;
        let without = cause == Cause::PlaceWithoutPae;
        self.note(Thing::ModeTooLargeAlone, of_mode);
        self.note(Thing::ModeThreeAlone, of_mode && mode == PAE + 1);
        self.note(Thing::ModeOf64BitsAlone, of_mode && mode == u64::MAX);
        self.note(Thing::PlaceTooLargeAlone, of_place);
        self.note(Thing::PlaceOf128Alone, of_place && place == LAST_PLACE + 1);
        self.note(Thing::PlaceOf64BitsAlone, of_place && place == u64::MAX);
        self.note(Thing::PlaceInModeZeroAlone, without && mode == FOUR_LEVEL);
        self.note(Thing::PlaceInPlainAlone, without && mode == PLAIN);
    }

    /// What is 12 for the number of starts and lengths alone.
    fn look_at_lists(&mut self, given: &Given, cause: Cause) {
        let [starts, lengths] = [given.starts.len(), given.lengths.len()];
        let differ = cause == Cause::CountsDiffer;
        let are_too_many = cause == Cause::TooManyRuns;
        let are_one = are_too_many && joined_runs(given).len() == 1;
        self.note(Thing::CountsDifferAlone, differ);
        self.note(Thing::OneStartMoreAlone, differ && starts == lengths + 1);
        self.note(Thing::OneLengthMoreAlone, differ && starts + 1 == lengths);
        self.note(Thing::NoRunsAlone, cause == Cause::NoRuns);
        self.note(Thing::TooManyRunsAlone, are_too_many);
        self.note(Thing::TooManyRunsOfOneJoinedAlone, are_one);
    }

    /// What is 13 for this cause alone.
    fn look_at_runs(&mut self, given: &Given, cause: Cause) {
        let is_early = cause == Cause::StartBeforeEnd;
        let is_past = cause == Cause::EndPastTop;
        let is_page_early =
            |(before, run): (Run, Run)| run.first_frame.saturating_add(1) == end_of(&before);
        let is_unsorted = |(before, run): (Run, Run)| run.first_frame < before.first_frame;
        let is_page_past = |run: Run| end_of(&run) == NUMBER_LIMIT + 1;
        self.note(Thing::LengthZeroAlone, cause == Cause::LengthZero);
        self.note(Thing::StartBeforeEndAlone, is_early);
        self.note(
            Thing::StartOnePageEarlyAlone,
            is_early && pairs(given).any(is_page_early),
        );
        self.note(
            Thing::StartBeforeStartAlone,
            is_early && pairs(given).any(is_unsorted),
        );
        self.note(Thing::EndPastTopAlone, is_past);
        self.note(
            Thing::EndOnePastTopAlone,
            is_past && runs(given).any(is_page_past),
        );
        self.note(Thing::WholeSpaceAlone, cause == Cause::WholeSpace);
    }

    /// A sheet that is written if there is room.
    fn look_at_good(&mut self, given: &Given) {
        let largest = NUMBER_LIMIT - 1;
        self.note(Thing::LargestDirectory, given.directory_page == largest);
        let Given { mode, place, .. } = *given;
        self.note(Thing::ModeZero, mode == FOUR_LEVEL);
        self.note(Thing::ModePlain, mode == PLAIN);
        self.note(Thing::ModePae, mode == PAE);
        self.note(Thing::PlaceZeroInPae, mode == PAE && place == 0);
        self.note(Thing::LargestPlace, place == LAST_PLACE);
        self.note(Thing::LargestStart, given.starts.contains(&largest));
        self.note(Thing::LargestLength, given.lengths.contains(&largest));
        self.note(Thing::FirstRunAtZero, given.starts.first() == Some(&0));
        let count = given.starts.len();
        self.note(Thing::OneRun, count == 1);
        self.note(Thing::Runs999, count == MOST_GIVEN - 1);
        self.note(Thing::Runs1000, count == MOST_GIVEN);
        let joined = joined_runs(given);
        let one_of = |given: usize| count == given && joined.len() == 1;
        self.note(Thing::TwoJoined, one_of(2));
        self.note(Thing::ThreeJoined, one_of(3));
        self.note(Thing::SomeJoined, joined.len() > 1 && joined.len() < count);
        self.note(Thing::ThousandJoined, one_of(MOST_GIVEN));
        self.note(Thing::ThousandApart, joined.len() == MOST_GIVEN);
        self.note(Thing::CountInTwoBytes, joined.len() >= 128);
        let is_largest = |run: &Run| run.pages == largest;
        let ends_at_top = |run: &Run| end_of(run) == NUMBER_LIMIT;
        let is_page_behind = |(before, run): (Run, Run)| run.first_frame == end_of(&before) + 1;
        self.note(
            Thing::LargestLengthJoined,
            joined.iter().any(is_largest) && count > joined.len(),
        );
        self.note(Thing::EndAtTop, joined.last().is_some_and(ends_at_top));
        self.note(Thing::GapOfOnePage, pairs(given).any(is_page_behind));
    }

    fn look_at_room(&mut self, given: &Given, sheet_length: usize, room: usize) {
        let apart = sheet_bytes(given, Slip::TouchingWrittenApart).len();
        self.note(Thing::NoRoom, room == 0);
        self.note(Thing::RoomShortByOne, sheet_length == room + 1);
        self.note(Thing::RoomExact, sheet_length == room);
        self.note(Thing::RoomLonger, sheet_length < room);
        self.note(
            Thing::RoomForJoinedOnly,
            sheet_length <= room && room < apart,
        );
    }

    pub fn print(&self) {
        for thing in THINGS {
            let times = with_commas(self.times[*thing as usize]);
            println!("{:>30}{:>12}", format!("{:?}", thing), times);
        }
    }

    /// A reason to fail for each thing that was met too rarely.
    pub fn reasons(&self) -> impl Iterator<Item = String> + '_ {
        let is_rare = |thing: &&Thing| self.times[**thing as usize] < LEAST_TIMES;
        THINGS.iter().filter(is_rare).map(|thing| {
            let times = self.times[*thing as usize];
            format!("{:?}: met {} times, wanted {}", thing, times, LEAST_TIMES)
        })
    }
}

/// The runs as they are given.
fn runs<'a>(given: &'a Given) -> impl Iterator<Item = Run> + 'a {
    let pairs = given.starts.iter().zip(given.lengths);
    pairs.map(|(start, length)| Run {
        first_frame: *start,
        pages: *length,
    })
}

/// Each run but the last with the one behind it.
fn pairs<'a>(given: &'a Given) -> impl Iterator<Item = (Run, Run)> + 'a {
    runs(given).zip(runs(given).skip(1))
}
