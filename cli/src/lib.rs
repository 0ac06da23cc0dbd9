//! A companion for matrices from the field: files in three formats, and the commands of the program `parity`. What
//! it says of a matrix or a word is the answer of a call of the proved library; the certificates that it finds itself
//! are checked, and held to the library's answer, before they are said.

pub mod alist;
pub mod args;
pub mod awgn;
pub mod bars;
pub mod certificates;
pub mod convert;
pub mod curve;
pub mod dots;
pub mod dual;
pub mod encode;
pub mod erase;
pub mod erasures;
pub mod explain;
pub mod extend;
pub mod fault;
pub mod files;
pub mod frame;
pub mod help;
pub mod html;
pub mod inspect;
pub mod interval;
pub mod json;
pub mod lines;
pub mod matrix;
pub mod measure;
pub mod mend;
pub mod message;
pub mod nearest;
pub mod output;
pub mod page;
pub mod places;
pub mod plot;
pub mod progress;
pub mod random;
pub mod record;
pub mod remarks;
pub mod replace;
pub mod report;
pub mod same;
pub mod soft;
pub mod stopping;
pub mod svg;
pub mod table;
pub mod tanner;
pub mod text;
pub mod verify;
pub mod words;

use args::Args;
use fault::Fault;
use std::ffi::OsString;

/// The exit statuses, as `--help` says them.
pub const DONE: u8 = 0;
pub const REFUSED: u8 = 1;
pub const USAGE: u8 = 2;
pub const IN_PART: u8 = 3;
pub const NO_WORD: u8 = 4;
pub const DISAGREES: u8 = 5;

/// Runs the program with these arguments, its own name left out; answers the exit status.
pub fn run(arguments: Vec<OsString>) -> u8 {
    match command(arguments) {
        Ok(status) => status,
        Err(fault) => {
            output::message(&fault.to_string());
            fault.status()
        }
    }
}

type Command = fn(Args) -> Result<u8, Fault>;

/// The commands: their names, and what their `--help` says.
const COMMANDS: [(&str, Command, &str); 13] = [
    ("convert", convert::run, help::CONVERT),
    ("inspect", inspect::run, help::INSPECT),
    ("same", same::run, help::SAME),
    ("extend", extend::run, help::EXTEND),
    ("encode", encode::run, help::ENCODE),
    ("message", message::run, help::MESSAGE),
    ("verify", verify::run, help::VERIFY),
    ("erase", erase::run, help::ERASE),
    ("mend", mend::run, help::MEND),
    ("explain", explain::run, help::EXPLAIN),
    ("soft", soft::run, help::SOFT),
    ("curve", curve::run, help::CURVE),
    ("report", report::run, help::REPORT),
];

fn names() -> [&'static str; COMMANDS.len()] {
    COMMANDS.map(|(name, _, _)| name)
}

fn command(arguments: Vec<OsString>) -> Result<u8, Fault> {
    let mut rest = arguments.into_iter();
    let Some(first) = rest.next() else {
        let commands = nearest::listed(&names(), "or");
        return Err(Fault::usage(&format!("a command is missing: {commands}; see parity --help")));
    };
    let name = first.to_string_lossy();
    match name.as_ref() {
        "--help" | "-h" | "help" => return output::text(help::PROGRAM),
        "--version" | "-V" => return output::text(concat!("parity ", env!("CARGO_PKG_VERSION"), "\n")),
        _ => {}
    }
    let Some((_, command, help)) = COMMANDS.iter().find(|(known, _, _)| *known == name) else {
        return Err(unknown(&name));
    };
    let rest: Vec<OsString> = rest.collect();
    if Args::asks_for_help(&rest) {
        return output::text(help);
    }
    command(Args::new(rest))
}

fn unknown(command: &str) -> Fault {
    let known = match nearest::of(command, &names()) {
        Some(near) => format!("did you mean {near}?"),
        None => format!("there are {};", nearest::listed(&names(), "and")),
    };
    Fault::usage(&format!("'{command}' is no command; {known} see parity --help"))
}
