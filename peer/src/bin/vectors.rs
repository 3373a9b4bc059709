//! `vectors LAYER DIR` writes the cases of the frame, supplement, report or stream
//! layer to DIR/stdin and the expected output to DIR/stdout; those of the report
//! begin with the bench cases of the papers, with a name for each in DIR/names.
//! `vectors tables DIR` writes the SAE tables to DIR/stdout.

use peer::vectors;
use std::env;
use std::path::Path;
use std::process::ExitCode;

fn main() -> ExitCode {
    let arguments: Vec<String> = env::args().skip(1).collect();
    let made = match arguments.iter().map(String::as_str).collect::<Vec<_>>()[..] {
        ["frame", _] => vectors::frame::make(),
        ["tables", _] => vectors::tables::make(),
        ["supplement", _] => vectors::supplement::make(),
        ["report", _] => vectors::report::make(),
        ["stream", _] => vectors::stream::make(),
        _ => {
            eprintln!("usage: vectors frame|tables|supplement|report|stream DIR");
            return ExitCode::from(2);
        }
    };
    let (files, summary, missing) = made;
    if let Err(error) = files.write(Path::new(&arguments[1])) {
        eprintln!("{}: {error}", arguments[1]);
        return ExitCode::FAILURE;
    }
    for class in &missing {
        eprintln!("no case of: {class}");
    }
    eprintln!("{summary}");
    if missing.is_empty() {
        ExitCode::SUCCESS
    } else {
        ExitCode::FAILURE
    }
}
