//! What the cases of modes 1 and 2 have in them, each thing to be met often enough in each mode that can have it.

use crate::common::codes::RESERVED_BIT_SET;
use crate::common::memory::{LARGE, PROTOTYPE, TRANSITION, VALID};
use crate::common::print::with_commas;
use crate::common::reserved::{reserved_level_of_read, reserved_levels};
use crate::common::tally::LEAST_TIMES;
use crate::narrow_answers::Answers;
use crate::narrow_cases::Question;
use crate::narrow_memory::{entry_at, levels, ADDRESS_LIMIT};
use crate::second::map::Map;
use crate::second::sheet::{Case, LAST_PLACE, PAE, PLAIN};
use crate::second::slip::Slip;
use crate::second::walk::{bits, resolve, Files, Place};

/// The levels of mode 2 above the last.
const TOP: u64 = 1;
const MIDDLE: u64 = 2;

/// Makes the enum of all things, and the list of them with the modes that can have each.
macro_rules! things {
    ($($modes:expr => $($name:ident)*;)*) => {
        #[derive(Clone, Copy, Debug)]
        enum Thing {
            $($($name,)*)*
        }
        const THINGS: &[(Thing, &[u64])] = &[$($((Thing::$name, $modes)),*),*];
    };
}

things! {
    &[PLAIN, PAE] =>
        DirectoryInGap
        TableInGap
        LastFrameInGap
        TopInTransition
        ValidFound
        TransitionFound
        FoundWithBit7
        ZeroState
        PrototypeState
        BothBitsState
        OtherState
        LargeAtRunStart
        LargeAtRunEnd
        LargeBeforeRun
        LargeBehindRun
        LargeWithBit12
        ReservedInRun
        ReservedInGap
        ReservedBit13Alone
        ReservedLastBitAlone
        Address2To32
        LastAddressFound
        ReadTo2To32
        ReadPast2To32
        TimeTo2To32
        TimePast2To32
        RangeTo2To32
        RangePast2To32
        RangeFrom2To32
        ListHeadUnaligned
        BlockFromPastImage
    ;
    &[PAE] =>
        MiddleInTransition
        TopWide
        MiddleWide
        LargeWide
        LastWide
        TopWideInGap
        TopReserved
        TopReservedInGap
        TopReservedAndWide
        TopReservedInRead
        TopReservedInMap
        TopReservedInLookup
        LargeReserved
        LargeReservedAndWide
        LargeReservedInRead
        LargeReservedInMap
        LargeReservedInLookup
        TableWithReservedBits
        NotValidWithReservedBits
        LastWithReservedBits
        TransitionWithHighBits
        FrameFrom2To20
        FoundAtPlaceZero
        FoundAtLastPlace
    ;
}

/// How often each thing was met in modes 1 and 2.
pub struct Met {
    times: [[u64; 2]; THINGS.len()],
}

impl Met {
    pub fn new() -> Self {
        Met {
            times: [[0; 2]; THINGS.len()],
        }
    }

    fn note(&mut self, mode: u64, thing: Thing, is_met: bool) {
        self.times[thing as usize][mode as usize - 1] += u64::from(is_met);
    }

    /// Looks at a question about an accepted case, and at its answers.
    pub fn look(&mut self, case: &Case, files: Files, question: &Question, answers: &Answers) {
        self.look_at_entries(case, files, question.address);
        let mode = case.mode;
        let mut note = |thing, is_met| self.note(mode, thing, is_met);
        let number = answers.resolved[0];
        let at_last = question.address == ADDRESS_LIMIT - 1;
        note(Thing::Address2To32, question.address == ADDRESS_LIMIT);
        note(Thing::LastAddressFound, at_last && number == 1);
        note(
            Thing::ListHeadUnaligned,
            answers.list[0] == 37 && question.head % 8 != 0,
        );
        let is_past_image = question.from >= files.image.len() as u64;
        note(
            Thing::BlockFromPastImage,
            answers.block[0] == 37 && is_past_image,
        );
        self.look_at_fields(mode, question, answers);
        self.look_at_range(mode, question, answers.map[0]);
    }

    /// Looks at what was refused for a reserved bit in mode 2, by the level of its entry.
    pub fn look_at_reserved(
        &mut self,
        files: Files,
        question: &Question,
        answers: &Answers,
        map: &Map,
    ) {
        let read = match answers.read[0] {
            RESERVED_BIT_SET => reserved_level_of_read(files, question.start, question.n),
            _ => None,
        };
        let in_map = reserved_levels(files, &map.ends_with(RESERVED_BIT_SET));
        let lookups = question.lookups.iter().zip(&answers.lookups);
        let lookups = lookups.filter(|(_, found)| found[0] == RESERVED_BIT_SET);
        let lookups: Vec<u64> = lookups.map(|(address, _)| *address).collect();
        let in_lookups = reserved_levels(files, &lookups);
        let mut note = |thing, is_met| self.note(PAE, thing, is_met);
        note(Thing::TopReservedInRead, read == Some(TOP));
        note(Thing::LargeReservedInRead, read == Some(MIDDLE));
        note(Thing::TopReservedInMap, in_map.contains(&TOP));
        note(Thing::LargeReservedInMap, in_map.contains(&MIDDLE));
        note(Thing::TopReservedInLookup, in_lookups.contains(&TOP));
        note(Thing::LargeReservedInLookup, in_lookups.contains(&MIDDLE));
    }

    /// Looks at the read and at the time, by where they end.
    fn look_at_fields(&mut self, mode: u64, question: &Question, answers: &Answers) {
        let mut note = |thing, is_met| self.note(mode, thing, is_met);
        let [read, time] = [answers.read[0], answers.time[0]];
        let end = question.start.saturating_add(question.n);
        let begins = question.start < ADDRESS_LIMIT;
        note(
            Thing::ReadTo2To32,
            read == 0 && question.n > 0 && end == ADDRESS_LIMIT,
        );
        note(
            Thing::ReadPast2To32,
            read == 20 && begins && end > ADDRESS_LIMIT,
        );
        let begins = question.time < ADDRESS_LIMIT;
        note(
            Thing::TimeTo2To32,
            [0, 60, 61].contains(&time) && question.time == ADDRESS_LIMIT - 8,
        );
        note(Thing::TimePast2To32, time == 20 && begins);
    }

    fn look_at_range(&mut self, mode: u64, question: &Question, map: u64) {
        let mut note = |thing, is_met| self.note(mode, thing, is_met);
        let is_aligned = question.map_start % 4096 == 0 && question.pages > 0;
        let from_limit = question.map_start >= ADDRESS_LIMIT;
        let pages_to_limit = ADDRESS_LIMIT.saturating_sub(question.map_start) / 4096;
        note(
            Thing::RangeTo2To32,
            map == 0 && question.pages == pages_to_limit,
        );
        note(
            Thing::RangePast2To32,
            map == 40 && is_aligned && !from_limit && question.pages == pages_to_limit + 1,
        );
        note(Thing::RangeFrom2To32, map == 40 && is_aligned && from_limit);
    }

    /// Looks at the last entry that is read for an address, by the level at which it is.
    fn look_at_entries(&mut self, case: &Case, files: Files, address: u64) {
        let answer = resolve(files, address, Slip::None);
        let read = answer.consulted.len();
        let entry_of = |place: &Place| match place {
            Place::Image(offset) => entry_at(files.image, *offset as usize, case.mode),
            Place::Pagefile(_) | Place::Zeros => 0,
        };
        let entries: Vec<u64> = answer.consulted.iter().map(entry_of).collect();
        let mut note = |thing, is_met| self.note(case.mode, thing, is_met);
        let Some(entry) = entries.last().copied() else {
            note(Thing::DirectoryInGap, answer.number == 23);
            return;
        };
        let found = answer.number == 1;
        note(Thing::FoundAtPlaceZero, found && case.place == 0);
        note(Thing::FoundAtLastPlace, found && case.place == LAST_PLACE);
        let reserved = |entry: &u64| bits(*entry, 13, 20) != 0;
        let uppers = &entries[..read.min(2)];
        note(
            Thing::TableWithReservedBits,
            found && read == 3 && uppers.iter().all(reserved),
        );
        match read == levels(case.mode).len() {
            true => self.look_at_last(case.mode, entry, answer.number),
            false => self.look_at_upper(case, entry, read, answer.number, address),
        }
    }

    /// Looks at an entry above the last level, the so many-th that was read.
    fn look_at_upper(&mut self, case: &Case, entry: u64, read: usize, number: u64, address: u64) {
        let mut note = |thing, is_met| self.note(case.mode, thing, is_met);
        let transition = number == 21 && entry & (TRANSITION | PROTOTYPE) == TRANSITION;
        let wide = number == 24 && bits(entry, 48, 51) != 0;
        let reserved_top = read == 1 && entry & LARGE != 0;
        let reserved_bits = entry & LARGE != 0 && bits(entry, 13, 20) != 0;
        let in_gap = !is_in_run(case, bits(entry, 12, 47));
        let may_be_large = read == levels(case.mode).len() - 1;
        let is_large = may_be_large && entry & (LARGE | VALID) == LARGE | VALID;
        note(Thing::TopInTransition, transition && read == 1);
        note(Thing::MiddleInTransition, transition && read == 2);
        note(Thing::TopWide, wide && read == 1);
        note(Thing::TopWideInGap, wide && read == 1 && in_gap);
        note(Thing::MiddleWide, wide && read == 2 && !is_large);
        note(Thing::TopReserved, number == 33 && reserved_top);
        note(
            Thing::TopReservedInGap,
            number == 33 && reserved_top && in_gap,
        );
        note(Thing::TopReservedAndWide, wide && reserved_top);
        note(
            Thing::NotValidWithReservedBits,
            number == 21 && reserved_bits && read == 2,
        );
        note(Thing::TableInGap, number == 23 && !is_large);
        if is_large {
            self.look_at_large(case, entry, address, number);
        }
    }

    fn look_at_last(&mut self, mode: u64, entry: u64, number: u64) {
        let mut note = |thing, is_met| self.note(mode, thing, is_met);
        let valid = entry & VALID != 0;
        let found = number == 1;
        let state = entry & (TRANSITION | PROTOTYPE);
        note(Thing::ValidFound, found && valid);
        note(Thing::TransitionFound, found && !valid);
        note(
            Thing::TransitionWithHighBits,
            found && !valid && bits(entry, 48, 51) != 0,
        );
        note(Thing::FoundWithBit7, found && entry & LARGE != 0);
        note(
            Thing::LastWithReservedBits,
            found && entry & LARGE != 0 && bits(entry, 13, 20) != 0,
        );
        note(Thing::FrameFrom2To20, found && bits(entry, 32, 47) != 0);
        note(Thing::LastFrameInGap, number == 23);
        note(Thing::LastWide, number == 24);
        let not_followed = number == 34;
        note(Thing::ZeroState, not_followed && entry == 0);
        note(Thing::PrototypeState, not_followed && state == PROTOTYPE);
        note(
            Thing::BothBitsState,
            not_followed && state == PROTOTYPE | TRANSITION,
        );
        note(Thing::OtherState, not_followed && state == 0 && entry != 0);
    }

    fn look_at_large(&mut self, case: &Case, entry: u64, address: u64, number: u64) {
        let mut note = |thing, is_met| self.note(case.mode, thing, is_met);
        let low = levels(case.mode)[levels(case.mode).len() - 2].low;
        let frame = bits(entry, low, 47) << (low - 12) | bits(address, 12, low - 1);
        let found = number == 1;
        let missing = number == 23;
        let runs = &case.runs;
        note(
            Thing::LargeAtRunStart,
            found && runs.iter().any(|run| run.first_frame == frame),
        );
        note(
            Thing::LargeAtRunEnd,
            found && runs.iter().any(|run| run.end() == frame + 1),
        );
        note(
            Thing::LargeBeforeRun,
            missing && runs.iter().any(|run| run.first_frame == frame + 1),
        );
        note(
            Thing::LargeBehindRun,
            missing && runs.iter().any(|run| run.end() == frame),
        );
        note(Thing::LargeWithBit12, found && bits(entry, 12, 12) != 0);
        self.look_at_reserved_bits(case, entry, frame, number);
    }

    /// Looks at the bits of a large page's entry from 13 up to its base: 24 in mode 1, 33 in mode 2.
    fn look_at_reserved_bits(&mut self, case: &Case, entry: u64, frame: u64, number: u64) {
        let mut note = |thing, is_met| self.note(case.mode, thing, is_met);
        let low = levels(case.mode)[levels(case.mode).len() - 2].low;
        let reserved = bits(entry, 13, low - 1);
        let refused = match case.mode {
            PLAIN => number == 24,
            _ => number == 33,
        };
        let in_run = is_in_run(case, frame);
        note(Thing::ReservedInRun, refused && in_run);
        note(Thing::ReservedInGap, refused && !in_run);
        note(Thing::ReservedBit13Alone, refused && reserved == 1);
        note(
            Thing::ReservedLastBitAlone,
            refused && reserved == 1 << (low - 14),
        );
        note(Thing::LargeWide, number == 24 && reserved == 0);
        note(Thing::LargeReserved, number == 33);
        note(Thing::LargeReservedAndWide, number == 24 && reserved != 0);
    }

    pub fn print(&self) {
        println!("{:>30}{:>12}{:>12}", "met", "mode 1", "mode 2");
        for (thing, modes) in THINGS {
            let times = [PLAIN, PAE].map(|mode| match modes.contains(&mode) {
                true => with_commas(self.times[*thing as usize][mode as usize - 1]),
                false => String::new(),
            });
            println!(
                "{:>30}{:>12}{:>12}",
                format!("{:?}", thing),
                times[0],
                times[1]
            );
        }
    }

    /// A reason to fail for each thing that was met too rarely in a mode.
    pub fn reasons(&self) -> Vec<String> {
        let mut reasons = Vec::new();
        for (thing, modes) in THINGS {
            for mode in *modes {
                let times = self.times[*thing as usize][*mode as usize - 1];
                if times < LEAST_TIMES {
                    reasons.push(format!(
                        "{:?} in mode {}: met {} times, wanted {}",
                        thing, mode, times, LEAST_TIMES
                    ));
                }
            }
        }
        reasons
    }
}

fn is_in_run(case: &Case, frame: u64) -> bool {
    let holds = |first: u64, end: u64| (first..end).contains(&frame);
    case.runs
        .iter()
        .any(|run| holds(run.first_frame, run.end()))
}
