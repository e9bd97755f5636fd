//! `replay`: shows, instruction by instruction, what the shadow stack did.
//!
//! * `request`: what the arguments ask for.
//! * `input`: runs to be replayed, and texts with the places they come from.
//! * `steps`: replaying a run by single steps, held to the whole run.
//! * `account`: what a RET or a WRUSS did, in words; `why` has why it faulted.
//! * `show`: the text for a person.
//! * `refused`: what a person is told of a text that is not read. The `reason`
//!   comes from `no_sheet` (where it is no sheet) or `sent_back` (where its run
//!   is refused), over the `lines` of the text. `form` has that of an
//!   instruction.
//! * `restore`: getting a sheet back from what a spreadsheet has saved.

#![forbid(unsafe_code)]

mod account;
mod form;
mod input;
mod lines;
mod no_sheet;
mod reason;
mod refused;
mod request;
mod restore;
mod sent_back;
mod show;
mod steps;
mod why;

use driftpocket::Sheet;
use input::{Run, Source};
use request::Request;
use std::env;
use std::io::{self, IsTerminal, Write};
use std::process::ExitCode;

/// The status where all is well.
const WELL: u8 = 0;

/// The status where something could not be replayed or did not agree.
const FAILED: u8 = 1;

/// The status where the arguments make no sense.
const MISUSED: u8 = 2;

fn main() -> ExitCode {
    let arguments: Vec<_> = env::args_os().skip(1).collect();
    let status = match request::read(&arguments, io::stdin().is_terminal()) {
        Ok(Request::Help) => write_out(request::HELP.as_bytes(), true),
        Ok(Request::Sheets(sources)) => replay_all(&sources),
        Ok(Request::Restore(source)) => with_text(&source, restore_sheet),
        Err(message) => complain(&message, MISUSED),
    };
    ExitCode::from(status)
}

/// Reads a text, and does something with it.
fn with_text(source: &Source, act: fn(&Source, &[u8]) -> u8) -> u8 {
    match source.text() {
        Ok(text) => act(source, &text),
        Err(message) => complain(&message, FAILED),
    }
}

/// Replays the runs of sheets, an empty line between any two. The status is the
/// worst of theirs.
fn replay_all(sources: &[Source]) -> u8 {
    let mut worst = WELL;
    for (place, source) in sources.iter().enumerate() {
        if place > 0 {
            worst = worst.max(write_out(b"\n", true));
        }
        worst = worst.max(with_text(source, replay_sheet));
    }
    worst
}

/// Replays the run of a sheet.
fn replay_sheet(source: &Source, text: &[u8]) -> u8 {
    let sheet = match Sheet::read(text) {
        Ok(sheet) => sheet,
        Err(error) => return complain(&refused::message(source, text, error), FAILED),
    };
    let run = Run::of_sheet(source, text, sheet);
    let replay = steps::replay(&run);
    let well = replay.is_sound() && replay.outcome.answer.is_completed();
    write_out(show::sheet(&run, &replay).as_bytes(), well)
}

/// Writes a text without what a spreadsheet has added, and says whether it is
/// a sheet.
fn restore_sheet(source: &Source, text: &[u8]) -> u8 {
    let restored = restore::restored(text);
    let taken = restore::taken(text);
    let written = write_out(&restored, true);
    if written != WELL {
        return written;
    }
    match Sheet::read(&restored) {
        Ok(_) => {
            tell(&format!(
                "{source}: taken off the ends of lines: {taken}; it is a sheet"
            ));
            WELL
        }
        Err(error) => complain(&refused::message(source, &restored, error), FAILED),
    }
}

/// Writes a text. The status is 0 only if all is well and the text got out.
fn write_out(text: &[u8], well: bool) -> u8 {
    let mut out = io::stdout().lock();
    let written = out.write_all(text).and_then(|()| out.flush());
    match written {
        Ok(()) if well => WELL,
        Ok(()) => FAILED,
        Err(error) => complain(&format!("cannot write: {error}"), FAILED),
    }
}

/// Says what is wrong.
fn complain(message: &str, status: u8) -> u8 {
    tell(message);
    status
}

/// Tells a person something. If it cannot be told, the status is left to say.
fn tell(message: &str) {
    let _ = writeln!(io::stderr(), "replay: {message}");
}
