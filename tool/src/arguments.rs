//! The command line.

use std::ffi::{OsStr, OsString};

use crate::encoding::Encoding;

#[derive(Clone, Copy, Debug, PartialEq, Eq)]
pub enum Command {
    Check,
    Table,
    Cells,
    Totals,
    Compare,
    Why,
    Look,
}

#[derive(Clone, Debug, Default, PartialEq, Eq)]
pub struct Options {
    pub json: bool,
    pub header: bool,
    pub encoding: Option<Encoding>,
    pub dimension: Option<String>,
    pub output: Option<OsString>,
    pub sections: Option<OsString>,
}

/// What was asked for.
#[derive(Clone, Debug, PartialEq, Eq)]
pub enum Asked {
    Help,
    Version,
    Run { command: Command, options: Options, files: Vec<OsString> },
}

const COMMANDS: [(&str, Command); 7] = [
    ("check", Command::Check),
    ("table", Command::Table),
    ("cells", Command::Cells),
    ("totals", Command::Totals),
    ("compare", Command::Compare),
    ("why", Command::Why),
    ("look", Command::Look),
];

/// The options with their values, and what is left.
#[derive(Default)]
struct Parsed {
    options: Options,
    asked: Option<Asked>,
    rest: Vec<OsString>,
}

pub fn parse(arguments: impl IntoIterator<Item = OsString>) -> Result<Asked, String> {
    let mut arguments = arguments.into_iter();
    let mut parsed = Parsed::default();
    while let Some(argument) = arguments.next() {
        if argument == "--" {
            parsed.rest.extend(arguments.by_ref());
        } else if is_option(&argument) {
            parsed.option(&argument, &mut arguments)?;
        } else {
            parsed.rest.push(argument);
        }
    }
    parsed.finish()
}

/// A single `-` is standard input.
fn is_option(argument: &OsStr) -> bool {
    argument.len() > 1 && argument.as_encoded_bytes().starts_with(b"-")
}

impl Parsed {
    fn option(
        &mut self,
        argument: &OsStr,
        arguments: &mut impl Iterator<Item = OsString>,
    ) -> Result<(), String> {
        let text = argument.to_string_lossy();
        let (name, attached) = match text.split_once('=') {
            Some((name, value)) => (name, Some(OsString::from(value))),
            None => (&*text, None),
        };
        let mut value =
            || attached.clone().or_else(|| arguments.next()).ok_or(format!("{name} needs a value"));
        match name {
            "--encoding" => {
                let value = value()?;
                let encoding = value.to_str().and_then(Encoding::named);
                let wrong = "--encoding is 1250, 1251, 1252 or utf-8";
                self.options.encoding = Some(encoding.ok_or(wrong)?);
            }
            "--dimension" => self.options.dimension = Some(value()?.to_string_lossy().into_owned()),
            "-o" | "--output" => self.options.output = Some(value()?),
            "--sections" => self.options.sections = Some(value()?),
            _ if attached.is_some() => return Err(format!("no option {text}")),
            "--json" => self.options.json = true,
            "--header" => self.options.header = true,
            "--help" | "-h" => self.asked = Some(Asked::Help),
            "--version" | "-V" => self.asked = Some(Asked::Version),
            _ => return Err(format!("no option {text}")),
        }
        Ok(())
    }

    fn finish(self) -> Result<Asked, String> {
        if let Some(asked) = self.asked {
            return Ok(asked);
        }
        let mut rest = self.rest.into_iter();
        let name = rest.next().ok_or("no command")?;
        let command = COMMANDS.iter().find(|(text, _)| name == *text).map(|(_, command)| *command);
        let command = command.ok_or(format!("no command {}", name.to_string_lossy()))?;
        let files: Vec<OsString> = rest.collect();
        check(command, &self.options, &files)?;
        Ok(Asked::Run { command, options: self.options, files })
    }
}

/// Whether these options and files go with the command.
fn check(command: Command, options: &Options, files: &[OsString]) -> Result<(), String> {
    let is_list =
        matches!(command, Command::Check | Command::Cells | Command::Totals | Command::Compare);
    let refuse = |wrong: bool, why: &str| if wrong { Err(why.to_string()) } else { Ok(()) };
    refuse(options.header && !is_list, "--header goes with check, cells, totals and compare")?;
    refuse(options.header && options.json, "--header does not go with --json")?;
    refuse(
        options.dimension.is_some() && command != Command::Totals,
        "--dimension goes with totals",
    )?;
    for (output, name) in [(&options.output, "-o"), (&options.sections, "--sections")] {
        let asked = output.is_some();
        refuse(asked && command != Command::Look, &format!("{name} goes with look"))?;
        refuse(asked && files.len() > 1, &format!("{name} takes one file"))?;
        refuse(asked && options.json, &format!("{name} does not go with --json"))?;
    }
    let both = options.output.is_some() && options.sections.is_some();
    refuse(both, "-o does not go with --sections")?;
    refuse(command == Command::Compare && files.is_empty(), "compare needs HAND.tsv and files")?;
    refuse(command == Command::Compare && files.len() == 1, "compare needs a file after HAND.tsv")?;
    refuse(files.is_empty(), "no file; - is standard input")?;
    refuse(
        files.iter().filter(|file| *file == "-").count() > 1,
        "standard input can be read once only",
    )
}

#[cfg(test)]
mod tests {
    use super::*;

    fn parsed(line: &str) -> Result<Asked, String> {
        parse(line.split_whitespace().map(OsString::from))
    }

    #[test]
    fn options_stand_anywhere() {
        let Ok(Asked::Run { command, options, files }) =
            parsed("--json totals a --dimension 1 - --encoding=utf-8 -- -b")
        else {
            panic!("it is a command line")
        };
        assert_eq!(command, Command::Totals);
        assert_eq!(files, ["a", "-", "-b"]);
        assert!(options.json && options.encoding == Some(Encoding::Utf8));
        assert_eq!(options.dimension.as_deref(), Some("1"));
    }

    #[test]
    fn wrong_lines() {
        let lines = [
            "",
            "check",
            "checks a",
            "check --no a",
            "check --json=1 a",
            "check --dimension 1 a",
            "check --header --json a",
            "table --header a",
            "cells --encoding 1253 a",
            "cells a --encoding",
            "look a b -o c",
            "check -o c a",
            "look a b --sections c",
            "look --json a --sections c",
            "check --sections c a",
            "look a --sections",
            "look a -o b --sections c",
            "compare",
            "compare h",
            "check - -",
        ];
        for line in lines {
            assert!(parsed(line).is_err(), "{line}");
        }
        assert_eq!(parsed("check --help"), Ok(Asked::Help));
        assert_eq!(parsed("--version"), Ok(Asked::Version));
    }
}
