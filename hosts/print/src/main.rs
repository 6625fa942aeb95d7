//! `print PROGRAM page|svg NAME`: prints the volume on standard input, which messages call NAME. PROGRAM is the proved printer. The words of the
//! command line are judged by `./print`.

use print::{page, picture, printer, refusal};
use std::ffi::OsString;
use std::io::{stdin, stdout, ErrorKind, Read, Write};
use std::process::ExitCode;

const REFUSED: u8 = 1;
const UNREADABLE: u8 = 2;

/// What ends the program: a message, unless there is nobody to read, and an exit status.
struct Ended(Option<String>, u8);

fn main() -> ExitCode {
    let words: Vec<OsString> = std::env::args_os().skip(1).collect();
    let result = match &words[..] {
        [program, form, name] if form == "page" || form == "svg" => printed(program, form == "svg", &name.to_string_lossy()),
        _ => Err(Ended(
            Some("print PROGRAM page|svg NAME; ./print runs it so".to_string()),
            UNREADABLE,
        )),
    };
    let Err(Ended(message, status)) = result else {
        return ExitCode::SUCCESS;
    };
    if let Some(message) = message {
        eprintln!("print: {message}");
    }
    status.into()
}

fn printed(program: &OsString, svg: bool, name: &str) -> Result<(), Ended> {
    let failed = |message| Ended(Some(message), REFUSED);
    let mut volume = Vec::new();
    let read = stdin().take(refusal::MOST_BYTES as u64 + 1).read_to_end(&mut volume);
    read.map_err(|e| Ended(Some(format!("{name} can't be read: {e}")), UNREADABLE))?;
    let written = printer::page(program, &volume).map_err(failed)?;
    let refused = written == printer::UNSOUND;
    if !svg {
        say(&written)?;
    }
    if refused {
        return Err(failed(format!("{name} is refused: {}", refusal::reason(&volume))));
    }
    if svg {
        let text = String::from_utf8(written).map_err(|e| failed(format!("the page: {e}")))?;
        let page = page::read(&text).map_err(failed)?;
        say(picture::draw(&page).as_bytes())?;
    }
    Ok(())
}

fn say(bytes: &[u8]) -> Result<(), Ended> {
    let mut output = stdout().lock();
    output.write_all(bytes).and_then(|()| output.flush()).map_err(|e| match e.kind() {
        ErrorKind::BrokenPipe => Ended(None, REFUSED),
        _ => Ended(Some(format!("standard output can't be written: {e}")), REFUSED),
    })
}
