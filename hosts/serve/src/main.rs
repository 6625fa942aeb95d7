use serve::{say, server, volume};
use serve_options::{parse, told, Command, HELP};
use std::io::Write;
use std::path::PathBuf;
use std::process::ExitCode;

fn main() -> ExitCode {
    match parse(std::env::args_os().skip(1)) {
        Err(message) => told(&message),
        Ok(Command::Help) => print(&help()),
        Ok(Command::Version) => print(concat!("serve ", env!("CARGO_PKG_VERSION"), "\n")),
        Ok(Command::Check(path)) => volume::check(&path).map_or_else(|fault| ended(Err(fault)), |said| print(&said)),
        Ok(Command::Serve(options)) => ended(server::serve(&options)),
    }
}

/// The help, by the name that the server was called by: `./serve` runs it as `serve`, and installed it has another.
fn help() -> String {
    let called = std::env::args_os().next().map(PathBuf::from);
    let name = called.as_ref().and_then(|path| path.file_name()?.to_str());
    match name {
        Some("serve") | None => HELP.to_string(),
        Some(name) => HELP.replace("./serve", name),
    }
}

fn print(text: &str) -> ExitCode {
    let _ = std::io::stdout().write_all(text.as_bytes());
    ExitCode::SUCCESS
}

fn ended(result: Result<(), String>) -> ExitCode {
    match result {
        Ok(()) => ExitCode::SUCCESS,
        Err(message) => {
            say(&message);
            ExitCode::FAILURE
        }
    }
}
