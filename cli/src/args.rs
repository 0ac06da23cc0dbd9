//! The arguments of a command: options are taken out by their names, and what remains are its files.

use crate::fault::Fault;
use crate::files::Format;
use crate::nearest;
use std::ffi::{OsStr, OsString};
use std::fmt::Display;
use std::path::PathBuf;
use std::str::FromStr;

pub struct Args {
    /// The arguments before `--`, and those behind it, which are files whatever they look like.
    rest: Vec<OsString>,
    files: Vec<OsString>,
    /// The options that the command asked for.
    known: Vec<&'static str>,
}

fn is_end(argument: &OsString) -> bool {
    argument == "--"
}

impl Args {
    pub fn new(mut rest: Vec<OsString>) -> Args {
        let files = match rest.iter().position(is_end) {
            Some(end) => rest.drain(end..).skip(1).collect(),
            None => Vec::new(),
        };
        Args { rest, files, known: Vec::new() }
    }

    pub fn asks_for_help(arguments: &[OsString]) -> bool {
        let options = arguments.iter().take_while(|argument| !is_end(argument));
        options.into_iter().any(|argument| argument == "--help" || argument == "-h")
    }

    /// Whether an option without a value is there.
    pub fn flag(&mut self, name: &'static str) -> bool {
        self.known.push(name);
        let before = self.rest.len();
        self.rest.retain(|argument| argument != name);
        self.rest.len() < before
    }

    /// The value of an option, `--name value` or `--name=value`, if it is there.
    pub fn value(&mut self, name: &'static str) -> Result<Option<OsString>, Fault> {
        self.known.push(name);
        let Some(place) = self.rest.iter().position(|argument| argument == name || inline(argument, name).is_some())
        else {
            return Ok(None);
        };
        let found = self.rest.remove(place);
        let value = match inline(&found, name) {
            Some(value) => value,
            None if self.rest.get(place).is_some_and(|next| !starts_with(next, "--")) => self.rest.remove(place),
            None => return Err(Fault::usage(&format!("{name} needs a value"))),
        };
        if self.rest.iter().any(|argument| argument == name || inline(argument, name).is_some()) {
            return Err(Fault::usage(&format!("{name} is given twice")));
        }
        Ok(Some(value))
    }

    pub fn path(&mut self, name: &'static str) -> Result<Option<PathBuf>, Fault> {
        Ok(self.value(name)?.map(PathBuf::from))
    }

    /// The value of an option as `of` takes it; `what` says what it may be.
    fn parsed<T>(
        &mut self,
        name: &'static str,
        what: &str,
        of: impl Fn(&str) -> Option<T>,
    ) -> Result<Option<T>, Fault> {
        let Some(value) = self.value(name)? else { return Ok(None) };
        match value.to_str().and_then(of) {
            Some(value) => Ok(Some(value)),
            None => Err(Fault::usage(&format!("{name} takes {what}, and not '{}'", value.to_string_lossy()))),
        }
    }

    /// The value of an option that is a number from `low` to `high`, whole or, where these are, with a fraction.
    pub fn number<T: FromStr + PartialOrd + Display>(
        &mut self,
        name: &'static str,
        low: T,
        high: T,
    ) -> Result<Option<T>, Fault> {
        let in_range = |text: &str| text.parse().ok().filter(|number| (&low..=&high).contains(&number));
        self.parsed(name, &format!("a number from {low} to {high}"), in_range)
    }

    pub fn format(&mut self, name: &'static str) -> Result<Option<Format>, Fault> {
        self.parsed(name, "alist, text or record", Format::named)
    }

    /// The value of an option that is one of these names.
    pub fn choice<T: Copy>(&mut self, name: &'static str, all: &[(&str, T)]) -> Result<Option<T>, Fault> {
        let names: Vec<&str> = all.iter().map(|(name, _)| *name).collect();
        let listed = nearest::listed(&names, "or");
        self.parsed(name, &listed, |text| all.iter().find(|(name, _)| *name == text).map(|(_, value)| *value))
    }

    /// The files, in order, once all options have been taken out.
    pub fn files<const N: usize>(self, names: [&str; N]) -> Result<[PathBuf; N], Fault> {
        let paths = self.paths()?;
        let number = paths.len();
        paths.try_into().map_err(|_| {
            let needed = if N == 0 { String::new() } else { format!(": {}", names.join(" ")) };
            Fault::usage(&format!("{number} files are named, and {N} needed{needed}; see --help"))
        })
    }

    /// One file or more, up to so many.
    pub fn several(self, most: usize) -> Result<Vec<PathBuf>, Fault> {
        let paths = self.paths()?;
        if (1..=most).contains(&paths.len()) {
            return Ok(paths);
        }
        Err(Fault::usage(&format!("{} files are named, and 1 to {most} needed; see --help", paths.len())))
    }

    fn paths(mut self) -> Result<Vec<PathBuf>, Fault> {
        if let Some(option) = self.rest.iter().find(|argument| is_option(argument)) {
            return Err(self.unknown(&option.to_string_lossy()));
        }
        self.rest.append(&mut self.files);
        Ok(self.rest.into_iter().map(PathBuf::from).collect())
    }

    /// An argument that looks like an option and is none that the command knows.
    fn unknown(&self, option: &str) -> Fault {
        let name = option.split('=').next().unwrap_or_default();
        if self.known.contains(&name) {
            return Fault::usage(&format!("{name} takes no value, and '{option}' has one"));
        }
        let meant = nearest::of(name, &self.known).map_or(String::new(), |known| format!("did you mean {known}? "));
        Fault::usage(&format!("'{option}' is no option here; {meant}see --help"))
    }
}

/// Whether an argument looks like an option; some editors make one dash of two.
fn is_option(argument: &OsStr) -> bool {
    argument != "-" && ["-", "\u{2013}", "\u{2014}"].iter().any(|dash| starts_with(argument, dash))
}

fn starts_with(argument: &OsStr, front: &str) -> bool {
    argument.as_encoded_bytes().starts_with(front.as_bytes())
}

/// The value in `--name=value`.
fn inline(argument: &OsStr, name: &str) -> Option<OsString> {
    argument.to_str()?.strip_prefix(name)?.strip_prefix('=').map(OsString::from)
}
