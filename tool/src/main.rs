//! The command `digarumbi`: members and looks on the screen, over the proved library.

mod arguments;
mod axis;
mod commands;
mod dump;
mod encoding;
mod grid;
mod hand;
mod input;
mod json;
mod look_words;
mod names;
mod number;
mod refusal;
mod replace;
mod session;
mod template;
mod text;
mod typed;
mod walk;

use std::ffi::OsString;
use std::process::ExitCode;

use arguments::{parse, Asked, Command, Options};
use session::{reason, Session, Status, Written};

const USAGE: &str = include_str!("usage.txt");
const VERSION: &str = concat!("digarumbi ", env!("CARGO_PKG_VERSION"), "\n");

fn main() -> ExitCode {
    let asked = parse(std::env::args_os().skip(1));
    let options = match &asked {
        Ok(Asked::Run { options, .. }) => options.clone(),
        _ => Options::default(),
    };
    let mut session = match Session::new(options) {
        Ok(session) => session,
        Err(error) => {
            eprintln!("digarumbi: standard output: {}", reason(&error));
            return ExitCode::from(Status::Failed as u8);
        }
    };
    // where writing stopped, the status says so
    let _ = answer(&mut session, asked);
    ExitCode::from(session.status() as u8)
}

fn answer(session: &mut Session, asked: Result<Asked, String>) -> Written {
    match asked {
        Ok(Asked::Run { command, files, .. }) => run(session, command, &files),
        Ok(Asked::Help) => session.write(USAGE.as_bytes()),
        Ok(Asked::Version) => session.write(VERSION.as_bytes()),
        Err(wrong) => {
            session.say(&format!("{wrong}; digarumbi --help has the commands"));
            session.set(Status::Failed);
            Ok(())
        }
    }
}

fn run(session: &mut Session, command: Command, files: &[OsString]) -> Written {
    match command {
        Command::Check => commands::check::run(session, files),
        Command::Table => commands::table::run(session, files),
        Command::Cells => commands::cells::run(session, files),
        Command::Totals => commands::totals::run(session, files),
        Command::Compare => commands::compare::run(session, files),
        Command::Why => commands::why::run(session, files),
        Command::Look => commands::look::run(session, files),
    }
}
