//! What is asked for on the command line.

use crate::stop;
use std::env;
use std::path::PathBuf;
use std::str::FromStr;

/// The layouts whose words have 32 bits.
pub const LAYOUTS_OF_32_BITS: [u32; 6] = [1, 2, 3, 4, 9, 15];

const INPUTS: u64 = 2_000_000;

/// 1904-02-29.
const SEED: u64 = 19_040_229;

pub enum Run {
    Generated { inputs: u64, seed: u64 },
    AllWords { layout: u32 },
    File { path: PathBuf },
}

pub fn read() -> Run {
    let (mut inputs, mut seed) = (INPUTS, SEED);
    let mut arguments = env::args().skip(1);
    while let Some(argument) = arguments.next() {
        match argument.as_str() {
            "--inputs" => inputs = number(arguments.next()),
            "--seed" => seed = number(arguments.next()),
            "--all-words" => {
                let layout = number(arguments.next());
                if !LAYOUTS_OF_32_BITS.contains(&layout) {
                    stop("--all-words takes a layout of 32 bits: 1, 2, 3, 4, 9 or 15");
                }
                return Run::AllWords { layout };
            }
            option if option.starts_with('-') => stop(&format!("there is no option {option}")),
            _ => {
                let path = argument.into();
                return Run::File { path };
            }
        }
    }
    Run::Generated { inputs, seed }
}

fn number<T: FromStr>(argument: Option<String>) -> T {
    argument
        .and_then(|text| text.parse().ok())
        .unwrap_or_else(|| stop("an option lacks its number, or has none that it takes"))
}
