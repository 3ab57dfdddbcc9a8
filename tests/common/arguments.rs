//! The options that the tests of the exported calls share.

use crate::second::slip::{self, Slip};
use std::process::ExitCode;

pub struct Arguments {
    pub seed: u64,
    pub cases: u64,
    pub slip: Slip,
    list_slips: bool,
}

/// Runs a test by its options; the test says whether it passed.
pub fn run(
    name: &str,
    usual_cases: u64,
    slips: &[Slip],
    test: impl FnOnce(&Arguments) -> bool,
) -> ExitCode {
    match read(std::env::args().skip(1), usual_cases, slips) {
        Err(why) => {
            let usage = "[--seed N] [--cases N] [--slip NAME] [--list-slips]";
            eprintln!("{}: {}\nusage: {} {}", name, why, name, usage);
            ExitCode::from(2)
        }
        Ok(arguments) if arguments.list_slips => {
            slips.iter().for_each(|slip| println!("{:?}", slip));
            ExitCode::SUCCESS
        }
        Ok(arguments) if test(&arguments) => ExitCode::SUCCESS,
        Ok(_) => ExitCode::from(1),
    }
}

fn read(
    mut words: impl Iterator<Item = String>,
    usual_cases: u64,
    slips: &[Slip],
) -> Result<Arguments, String> {
    let mut arguments = Arguments {
        seed: 1,
        cases: usual_cases,
        slip: Slip::None,
        list_slips: false,
    };
    while let Some(word) = words.next() {
        if word == "--list-slips" {
            arguments.list_slips = true;
            continue;
        }
        let value = words.next().ok_or(format!("nothing after {}", word))?;
        let number = value.parse().map_err(|_| format!("no number {}", value));
        match word.as_str() {
            "--seed" => arguments.seed = number?,
            "--cases" => arguments.cases = number?,
            "--slip" => {
                arguments.slip = slip::named(slips, &value).ok_or(format!("no slip {}", value))?;
            }
            _ => return Err(format!("unexpected {}", word)),
        }
    }
    Ok(arguments)
}
