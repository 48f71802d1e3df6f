//! The step machine without proofs, to compare with: `unproved trace [--sq N] [--cq N] [--files N] [--start N] [--stop]`, and `unproved measure [few | many]`.

mod completion;
mod entry;
mod errno;
mod files;
mod kinds;
mod language;
mod machine;
mod measure;
mod requests;
mod setup;
mod submission;
mod trace;

use setup::Setup;
use std::io::{self, BufReader, BufWriter};
use std::process::ExitCode;

fn main() -> ExitCode {
    let words: Vec<String> = std::env::args().skip(1).collect();
    let words: Vec<&str> = words.iter().map(String::as_str).collect();
    let ran = match words.as_slice() {
        ["measure"] => measure::measure(&mut io::stdout()),
        ["measure", "few"] => {
            measure::rounds_of_one(1000);
            Ok(())
        }
        ["measure", "many"] => {
            measure::rounds_of_one(10_000_000);
            Ok(())
        }
        ["trace", options @ ..] => match set_up(options) {
            Some(setup) => trace::trace(
                BufReader::new(io::stdin()),
                BufWriter::new(io::stdout()),
                &setup,
            ),
            None => return usage(),
        },
        _ => return usage(),
    };
    match ran {
        Ok(()) => ExitCode::SUCCESS,
        Err(error) => {
            eprintln!("unproved: {error}");
            ExitCode::FAILURE
        }
    }
}

fn set_up(options: &[&str]) -> Option<Setup> {
    let (mut sq, mut cq, mut files, mut start, mut stops) = (4, None, 2, 0, false);
    let mut words = options.iter().copied();
    while let Some(name) = words.next() {
        if name == "--stop" {
            stops = true;
            continue;
        }
        let value = words.next()?.parse().ok()?;
        match name {
            "--sq" => sq = value,
            "--cq" => cq = Some(value),
            "--files" => files = value,
            "--start" => start = value,
            _ => return None,
        }
    }
    Setup::new(sq, cq, files, start).map(|setup| Setup { stops, ..setup })
}

fn usage() -> ExitCode {
    eprintln!("unproved trace [--sq N] [--cq N] [--files N] [--start N] [--stop], or unproved measure [few | many]");
    ExitCode::from(2)
}
