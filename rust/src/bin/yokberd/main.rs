//! The command line: names for the ids and types of a .pdb file of any size, thin over the library.
mod answers;
mod arguments;
mod input;
mod messages;
mod output;
mod progress;
mod records;

use arguments::{Arguments, Command};
use messages::Failure;
use output::Output;
use progress::Progress;
use std::process::ExitCode;
use yokberd::TypeFormatter;

const HELP: &str = include_str!("help.txt");

fn main() -> ExitCode {
    match run() {
        Ok(()) => ExitCode::SUCCESS,
        Err(failure) => failure.tell(),
    }
}

fn run() -> Result<(), Failure> {
    match arguments::parse(std::env::args_os().skip(1))? {
        Command::Help => output::say(HELP),
        Command::Version => output::say(concat!("yokberd ", env!("CARGO_PKG_VERSION"), "\n")),
        Command::Usage => Err(Failure::Usage(HELP)),
        Command::Answer(arguments) => answer(&arguments),
    }
}

fn answer(arguments: &Arguments) -> Result<(), Failure> {
    let mut progress = Progress::new();
    let streams = input::streams(arguments, &mut progress)?;
    let pointer_size = arguments.pointer_size.unwrap_or(streams.pointer_size);
    let formatter = TypeFormatter::new_from_parts(&streams.types, &streams.ids, pointer_size, arguments.flags);
    let indexes = input::accepted(arguments, &formatter, &streams)?;
    let asked = input::asked(arguments, indexes, &streams)?;
    input::tell_no_ids(arguments, &streams);
    if let Some(path) = &arguments.sheet {
        return answers::write_sheet(path, &formatter, arguments.what, &asked);
    }
    let mut output = Output::new(arguments.form, progress, asked.len());
    answers::write(&mut output, &formatter, arguments.what, &asked)?;
    output.end()
}
