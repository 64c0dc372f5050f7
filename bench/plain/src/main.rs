//! The yardstick: a plain Rust program without dependencies or proofs that answers the scripts of lbsim.
use plainsim::script::parse;
use plainsim::world::World;
use std::io::{self, BufRead, BufWriter, Write};
use std::process::ExitCode;

const LINE_LIMIT: u64 = 16777216;

/// Why a script ends before its last line.
enum Ending {
    BadLine,
    LineTooLong,
    Read,
}

impl Ending {
    fn name(&self) -> &'static str {
        match self {
            Ending::BadLine => "BadLine",
            Ending::LineTooLong => "LineTooLong",
            Ending::Read => "Read",
        }
    }
}

/// Reads the next line without its line feed; false at the end of the script.
fn read_line(input: &mut impl BufRead, line: &mut Vec<u8>) -> Result<bool, Ending> {
    line.clear();
    let mut limited = io::Read::take(input, LINE_LIMIT + 1);
    let count = limited.read_until(b'\n', line).map_err(|_| Ending::Read)?;
    if line.last() == Some(&b'\n') {
        line.pop();
    } else if count as u64 > LINE_LIMIT {
        return Err(Ending::LineTooLong);
    }
    Ok(count > 0)
}

/// Answers one line.
fn answer(world: &mut World, line: &[u8], output: &mut impl Write) -> io::Result<Result<(), Ending>> {
    let parsed = std::str::from_utf8(line).ok().and_then(parse);
    let Some(line) = parsed else { return Ok(Err(Ending::BadLine)) };
    match world.take(line) {
        Ok(answer) => writeln!(output, "{answer}")?,
        Err(refusal) => writeln!(output, "refused {refusal}")?,
    }
    Ok(Ok(()))
}

/// Answers the whole script; the status that the program ends with.
fn run(input: &mut impl BufRead, output: &mut impl Write) -> io::Result<u8> {
    let mut world = World::default();
    let mut line = Vec::new();
    for number in 1u64.. {
        let ending = match read_line(input, &mut line) {
            Ok(true) => match answer(&mut world, &line, output)? {
                Ok(()) => continue,
                Err(ending) => ending,
            },
            Ok(false) => break,
            Err(ending) => ending,
        };
        writeln!(output, "error {number} {}", ending.name())?;
        output.flush()?;
        return Ok(1);
    }
    output.flush()?;
    Ok(0)
}

fn main() -> ExitCode {
    let mut output = BufWriter::new(io::stdout().lock());
    if std::env::args_os().len() > 1 {
        let _ = writeln!(output, "error 0 BadArguments");
        return ExitCode::from(1);
    }
    ExitCode::from(run(&mut io::stdin().lock(), &mut output).unwrap_or(1))
}
