//! The command line of the second implementation; see the README.

use std::io::Write;
use std::process::ExitCode;

fn main() -> ExitCode {
    let args: Vec<String> = std::env::args().skip(1).collect();
    let Some((text, well)) = reference::cli::run(&args, &mut std::io::stdin()) else {
        eprint!("{}", reference::cli::USAGE);
        return ExitCode::from(2);
    };
    if std::io::stdout().write_all(&text).is_err() {
        return ExitCode::FAILURE;
    }
    if well {
        ExitCode::SUCCESS
    } else {
        ExitCode::FAILURE
    }
}
