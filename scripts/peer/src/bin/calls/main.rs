//! calls lines SEED COUNT: writes random and hostile lines of single calls, in the form of crates/conformance.
//! calls lending SEED COUNT: writes such lines of one-shot calls that lend.
//! calls answers: writes the answers of the Rust crate encoding_rs to the lines of standard input.
//! calls fuzz OURS: makes the call of standard input by the crate and by OURS, a build of crates/conformance.
//! calls seeds FOLDER, calls kept PATH..: write inputs of a fuzzer to begin with, and lines of those that it has kept.
mod answers;
mod fuzz;
mod lines;

use peer::random::Random;
use std::io::{self, BufRead, BufWriter, Write};
use std::process::ExitCode;

fn main() -> io::Result<ExitCode> {
    let arguments: Vec<String> = std::env::args().skip(1).collect();
    let words: Vec<&str> = arguments.iter().map(String::as_str).collect();
    let mut out = BufWriter::new(io::stdout().lock());
    match words[..] {
        [kind @ ("lines" | "lending"), seed, count] => {
            let (Ok(seed), Ok(count)) = (seed.parse(), count.parse::<usize>()) else { return Ok(ExitCode::from(2)) };
            let (name, line): (_, fn(&mut Random) -> String) =
                if kind == "lines" { ("calls", lines::line) } else { ("lending", lines::lending_line) };
            let mut random = Random::new(seed, name);
            for _ in 0..count {
                writeln!(out, "{}", line(&mut random))?;
            }
        }
        ["answers"] => {
            std::panic::set_hook(Box::new(|_| ()));
            for line in io::stdin().lock().lines() {
                writeln!(out, "{}", answers::answer(&line?))?;
            }
        }
        ["fuzz", ours] => fuzz::compare(ours)?,
        ["seeds", folder] => fuzz::write_seeds(folder)?,
        ["kept", ref paths @ ..] => fuzz::write_kept(paths, &mut out)?,
        _ => return Ok(ExitCode::from(2)),
    }
    out.flush()?;
    Ok(ExitCode::SUCCESS)
}
