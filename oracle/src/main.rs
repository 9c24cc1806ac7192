//! Frames in, answer frames out: the original Rust drivers as a program.

use std::io::{self, BufReader};
use std::path::Path;
use std::process::ExitCode;

use oracle::{damage, random, replay, vectors};

const USAGE: &str = "usage: oracle [replay] < FRAMES > ANSWERS
       oracle random SEED COUNT > FRAMES
       oracle damage SEED COUNT FOLDER
       oracle vectors FOLDER";

fn number(text: &str) -> io::Result<u64> {
    text.parse().map_err(|_| io::Error::other(format!("not a number: {text}")))
}

fn run(arguments: &[&str]) -> io::Result<bool> {
    match arguments {
        [] | ["replay"] => {
            replay::replay(BufReader::with_capacity(1 << 16, io::stdin().lock()), &mut io::stdout().lock())?
        }
        ["random", seed, count] => random::print(number(seed)?, number(count)?, &mut io::stdout().lock())?,
        ["damage", seed, count, folder] => damage::write(number(seed)?, number(count)?, Path::new(folder))?,
        ["vectors", folder] => vectors::write(Path::new(folder))?,
        _ => return Ok(false),
    }
    Ok(true)
}

fn main() -> ExitCode {
    let arguments: Vec<String> = std::env::args().skip(1).collect();
    match run(&arguments.iter().map(String::as_str).collect::<Vec<_>>()) {
        Ok(true) => ExitCode::SUCCESS,
        Ok(false) => {
            eprintln!("{USAGE}");
            ExitCode::from(2)
        }
        Err(error) => {
            eprintln!("oracle: {error}");
            ExitCode::from(1)
        }
    }
}
