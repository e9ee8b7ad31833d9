//! What the programs that read standard input share: messages and exit statuses.

use crate::pohandira::{self, Refused};
use std::io::{self, Read, Write};
use std::process::ExitCode;

/// What failed, beside why.
fn of(what: &str) -> impl Fn(io::Error) -> String + '_ {
    move |error| format!("{what}: {error}")
}

/// Prints the text of standard input, or its refusal, which is given back.
fn print(text: fn(&[u8]) -> Result<String, Refused>) -> Result<Option<Refused>, String> {
    if pohandira::version() != pohandira::VERSION {
        return Err("the library: not the version that this program was compiled for".to_string());
    }
    let mut recording = Vec::new();
    io::stdin().read_to_end(&mut recording).map_err(of("standard input"))?;
    let (text, refused) = match text(&recording) {
        Ok(text) => (text, None),
        Err(refused) => (format!("{refused}\n"), Some(refused)),
    };
    let mut output = io::stdout();
    let written = output.write_all(text.as_bytes()).and_then(|()| output.flush());
    written.map_err(of("standard output"))?;
    Ok(refused)
}

/// Prints the text of the recording on standard input; messages begin with the program's name.
pub fn print_input(name: &str, text: fn(&[u8]) -> Result<String, Refused>) -> ExitCode {
    match print(text) {
        Ok(None) => ExitCode::SUCCESS,
        Ok(Some(refused)) => {
            eprintln!("{name}: refused: {}", refused.refusal.text());
            ExitCode::from(1)
        }
        Err(message) => {
            eprintln!("{name}: {message}");
            ExitCode::from(2)
        }
    }
}
