//! The reference's commands.
#![forbid(unsafe_code)]

use reference::call::{Call, CALLS};
use reference::{bench, cases};
use std::io::{self, Read, Write};
use std::path::Path;
use std::process::ExitCode;

const USAGE: &str = "\
usage: reference CALL               < input   answer one input
       reference cases STDIN STDOUT           write the stored cases and their answers
       reference replay             < cases   answer a stream of cases
       reference bench                        time the calls
       reference bench-input DIRECTORY        write the timed inputs
";

fn main() -> ExitCode {
    let words: Vec<String> = std::env::args().skip(1).collect();
    let words: Vec<&str> = words.iter().map(String::as_str).collect();
    let done = match words[..] {
        ["cases", inputs, answers] => write_cases(inputs, answers),
        ["replay"] => read(u64::MAX).and_then(|input| write(&cases::replay(&input)?)),
        ["bench"] => {
            bench::run();
            Ok(())
        }
        ["bench-input", directory] => bench::write_inputs(Path::new(directory)),
        [word] => match Call::named(word) {
            Some(call) => answer(call),
            None => return usage(),
        },
        _ => return usage(),
    };
    match done {
        Ok(()) => ExitCode::SUCCESS,
        Err(error) => {
            eprintln!("reference: {error}");
            ExitCode::FAILURE
        }
    }
}

fn usage() -> ExitCode {
    let names = CALLS.map(|call| call.name).join(", ");
    eprintln!("{USAGE}calls: {names}");
    ExitCode::from(2)
}

/// Answers what stands on standard input. One byte more than the bound is enough to tell that it
/// is over-size.
fn answer(call: &Call) -> io::Result<()> {
    let most = call.bound().map_or(u64::MAX, |bound| bound as u64 + 1);
    write(&call.answer(&read(most)?))
}

/// Standard input, of which no more than `most` bytes are read.
fn read(most: u64) -> io::Result<Vec<u8>> {
    let mut input = Vec::new();
    io::stdin().lock().take(most).read_to_end(&mut input)?;
    Ok(input)
}

fn write(output: &[u8]) -> io::Result<()> {
    io::stdout().lock().write_all(output)
}

fn write_cases(inputs: &str, answers: &str) -> io::Result<()> {
    let stream = cases::make();
    eprintln!("{stream}");
    std::fs::write(inputs, stream.inputs())?;
    std::fs::write(answers, stream.answers())
}
