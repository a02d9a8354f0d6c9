use std::process::ExitCode;

use plain::report;

fn main() -> ExitCode {
    let files: Vec<String> = std::env::args().skip(1).collect();
    match report::read("exchange", &files, 2) {
        Some(read) if report::print(&report::exchange(&read[0], &read[1])) => ExitCode::SUCCESS,
        _ => ExitCode::FAILURE,
    }
}
