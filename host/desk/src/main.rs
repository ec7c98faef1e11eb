//! The program that licensees use at their desks: `gorzhani --help` says what it does.

#![forbid(unsafe_code)]

use std::env;
use std::io::{self, IsTerminal, Write};
use std::process::ExitCode;

use desk::call::{asked, Asked};
use desk::verbs::{answer, say, Answer, MISTAKE, YES};

fn main() -> ExitCode {
    let words: Result<Vec<String>, _> =
        env::args_os().skip(1).map(|word| word.into_string()).collect();
    let answered = match words {
        Ok(words) => answered(&words),
        Err(word) => Err(format!("gorzhani: '{}' isn't text", word.to_string_lossy())),
    };
    let Answer { out, status } = answered.unwrap_or_else(|wrong| {
        say(&wrong);
        Answer { out: Vec::new(), status: MISTAKE }
    });
    let mut stdout = io::stdout().lock();
    match stdout.write_all(&out).and_then(|()| stdout.flush()) {
        // Whoever reads has read enough.
        Err(error) if error.kind() == io::ErrorKind::BrokenPipe => ExitCode::from(status),
        Err(error) => {
            say(&format!("standard output: {error}"));
            ExitCode::from(MISTAKE)
        }
        Ok(()) => ExitCode::from(status),
    }
}

fn answered(words: &[String]) -> Result<Answer, String> {
    match asked(words).map_err(|wrong| format!("gorzhani: {wrong}"))? {
        Asked::Text(text) => Ok(Answer { out: text.into_bytes(), status: YES }),
        Asked::Call(call) => answer(&call, colours()),
    }
}

/// Colours are for terminals alone, and not for those who don't want them.
fn colours() -> bool {
    let unwanted = env::var_os("NO_COLOR").is_some_and(|value| !value.is_empty());
    let dumb = env::var_os("TERM").is_some_and(|terminal| terminal == "dumb");
    io::stderr().is_terminal() && !unwanted && !dumb
}
