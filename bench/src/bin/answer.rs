use std::process::ExitCode;

use plain::report;

fn main() -> ExitCode {
    let files: Vec<String> = std::env::args().skip(1).collect();
    match report::read("answer", &files, 3) {
        Some(read) if report::print(&report::answer(&read[0], &read[1], &read[2])) => ExitCode::SUCCESS,
        _ => ExitCode::FAILURE,
    }
}
