//! Turns a drawing file (a path, or standard input) into an SVG picture on standard output.

mod drawing;
mod svg;

use std::error::Error;
use std::io::{self, Read, Write};
use std::process::ExitCode;

use drawing::Drawing;

/// Writes the picture, or a message on standard error with exit status 1.
fn main() -> ExitCode {
    match run() {
        Ok(()) => ExitCode::SUCCESS,
        Err(error) => {
            eprintln!("picture: {error}");
            ExitCode::from(1)
        }
    }
}

/// Reads the drawing file and writes its picture.
fn run() -> Result<(), Box<dyn Error>> {
    let mut paths = std::env::args_os().skip(1);
    let mut bytes = Vec::new();
    match (paths.next(), paths.next()) {
        (None, _) => {
            io::stdin().read_to_end(&mut bytes)?;
        }
        (Some(path), None) => {
            bytes = std::fs::read(&path)
                .map_err(|error| format!("{}: {error}", path.to_string_lossy()))?;
        }
        (Some(_), Some(_)) => return Err("usage: picture [drawing file]".into()),
    }
    let drawing = Drawing::read(&bytes)?;
    io::stdout().write_all(svg::svg(&drawing).as_bytes())?;
    Ok(())
}
