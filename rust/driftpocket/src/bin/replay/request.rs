//! What the arguments ask for.

use crate::input::Source;
use std::ffi::{OsStr, OsString};

/// What the program says about itself.
pub const HELP: &str = "\
replay: shows, instruction by instruction, what the shadow stack did.

usage: replay FILE ..          replay the run sheet in this file, or in each of
                               these files
       replay -                the same from standard input; so does replay
                               alone, unless that is a terminal
       replay --restore FILE   write the text of this file (or of - or standard
                               input) to standard output, without the tabs and
                               carriage returns that a spreadsheet leaves at
                               the ends of lines, and say whether it is a sheet;
                               send it to another file than FILE
       replay --help           this text

For a sheet it shows the state, the pages and what they hold, and then each
instruction with its operands, SSP and IP before and after, and every load and
store with address, size and value. Of RET it says what was compared, of RET and
WRUSS why they faulted, and of CALL where it leaves no frame on an enabled
shadow stack. Four lines close it: how many instructions completed, the answer
in numbers, the answer in words, and the state after the last completed
instruction as a line of a sheet. Numbers with 0x are hexadecimal, those of a
sheet too, all others decimal.

A text that is no sheet to the byte is not replayed. The program names the
refusal, the line, what stands there and what was expected, on standard error.

Each run is made twice: one instruction at a time, which is what is shown, and
once as a whole. Both must come to the same end.

status: 0 every instruction completed, or the restored text is a sheet
        1 a run ended in a fault or a refusal, a text is no sheet or cannot be
          read, or the two ways to run one did not agree
        2 the arguments make no sense
";

/// What is asked for.
#[derive(Clone, Debug, PartialEq, Eq)]
pub enum Request {
    /// To say what the program does.
    Help,
    /// To replay these sheets.
    Sheets(Vec<Source>),
    /// To get a sheet back from what a spreadsheet has saved.
    Restore(Source),
}

/// Reads the arguments, or says what is wrong with them. Someone who sits at a
/// terminal and names nothing is not waited for.
pub fn read(arguments: &[OsString], terminal: bool) -> Result<Request, String> {
    match arguments {
        [] if terminal => Err("no sheet is named; see replay --help".to_string()),
        [] => Ok(Request::Sheets(vec![Source::Input])),
        [only] if only == "--help" || only == "-h" => Ok(Request::Help),
        [only] if only == "--restore" && terminal => {
            Err("no text to restore is named; see replay --help".to_string())
        }
        [only] if only == "--restore" => Ok(Request::Restore(Source::Input)),
        [first, text] if first == "--restore" => Ok(Request::Restore(source(text)?)),
        all => {
            let sources = all.iter().map(|one| source(one));
            Ok(Request::Sheets(sources.collect::<Result<_, _>>()?))
        }
    }
}

/// The text that an argument names.
fn source(argument: &OsStr) -> Result<Source, String> {
    match argument.as_encoded_bytes() {
        b"-" => Ok(Source::Input),
        [] | [b'-', ..] => Err(unexpected(argument)),
        _ => Ok(Source::File(argument.into())),
    }
}

/// Says that an argument has no meaning.
fn unexpected(argument: &OsStr) -> String {
    let argument = argument.display();
    format!("unexpected argument '{argument}'; see replay --help")
}

#[cfg(test)]
mod tests {
    use super::*;

    /// Reads these arguments, without a terminal.
    fn read_all(arguments: &[&str]) -> Result<Request, String> {
        let arguments: Vec<_> = arguments.iter().map(OsString::from).collect();
        read(&arguments, false)
    }

    #[test]
    fn what_is_understood() {
        let file = || Source::File("a.sheet".into());
        let cases = [
            (vec![], Request::Sheets(vec![Source::Input])),
            (vec!["-"], Request::Sheets(vec![Source::Input])),
            (vec!["a.sheet"], Request::Sheets(vec![file()])),
            (
                vec!["a.sheet", "-"],
                Request::Sheets(vec![file(), Source::Input]),
            ),
            (vec!["--restore"], Request::Restore(Source::Input)),
            (vec!["--restore", "-"], Request::Restore(Source::Input)),
            (vec!["--restore", "a.sheet"], Request::Restore(file())),
            (vec!["--help"], Request::Help),
            (vec!["-h"], Request::Help),
        ];
        for (arguments, request) in cases {
            assert_eq!(read_all(&arguments), Ok(request), "{arguments:?}");
        }
    }

    #[test]
    fn what_is_not() {
        let cases: [(&[&str], &str); 7] = [
            (&["--loud"], "--loud"),
            (&[""], ""),
            (&["--help", "more"], "--help"),
            (&["a.sheet", "--help"], "--help"),
            (&["a.sheet", "b.sheet", ""], ""),
            (&["--restore", "--loud"], "--loud"),
            (&["--restore", "a", "b"], "--restore"),
        ];
        for (arguments, named) in cases {
            let message = format!("unexpected argument '{named}'; see replay --help");
            assert_eq!(read_all(arguments), Err(message), "{arguments:?}");
        }
    }

    #[test]
    fn nobody_is_waited_for() {
        assert!(read(&[], true).is_err());
        assert!(read(&["--restore".into()], true).is_err());
        let asked = read(&["-".into()], true);
        assert_eq!(asked, Ok(Request::Sheets(vec![Source::Input])));
    }
}
