//! Writes a sheet without some of its rows, for recovery builds. The sheet comes from standard input, and goes to standard output. A row is named by its number in
//! decimal digits, from 1 across the three lists, as a refusal names it and examples/explain.rs shows it.
//!
//! ```sh
//! cargo run --example trim -- 3 5 < FILE > REST
//! ```
//!
//! What is written is accepted. Platform rows stay, VBS contexts too, and each parameter area that a remaining row names; a sheet that is not accepted is not trimmed.
//! Then nothing is written but the reason, to standard error. Exit status: 0 the rest is written, 1 the sheet is not trimmed, 2 no sheet could be read, or an
//! argument is no number.

mod command;

use sapyullu::{trimmed, Place};
use std::ffi::OsString;
use std::io::{self, Read, Write};
use std::process::ExitCode;

const USAGE: &str = "trim [ROW..] < FILE";

/// The sheet without these rows, or why it is not trimmed.
fn rest(sheet: &[u8], rows: &[u64]) -> Result<Vec<u8>, String> {
    let place = |&row: &u64| Place::of_row(sheet, row).ok_or(format!("the sheet has no row {row}"));
    let places: Vec<Place> = rows.iter().map(place).collect::<Result<_, _>>()?;
    trimmed(sheet, places).map_err(|error| error.to_string())
}

/// Writes the rest, or the reason, and says whether it is the rest.
fn write_rest(sheet: &[u8], rows: &[u64], out: &mut impl Write, reasons: &mut impl Write) -> io::Result<bool> {
    let rest = rest(sheet, rows);
    match &rest {
        Ok(bytes) => out.write_all(bytes)?,
        Err(reason) => writeln!(reasons, "{reason}")?,
    }
    out.flush()?;
    Ok(rest.is_ok())
}

/// The numbers that the arguments are.
fn numbers(arguments: &[OsString]) -> io::Result<Vec<u64>> {
    let number = |argument: &OsString| argument.to_str().and_then(|digits| digits.parse().ok());
    let numbers: Option<Vec<u64>> = arguments.iter().map(number).collect();
    numbers.ok_or(io::Error::new(io::ErrorKind::InvalidInput, format!("usage: {USAGE}")))
}

/// The exit status.
pub fn run(arguments: &[OsString], input: &mut impl Read, out: &mut impl Write, reasons: &mut impl Write) -> u8 {
    let rows = numbers(arguments);
    command::exit_status(rows.and_then(|rows| write_rest(&command::sheet(&[], input, USAGE)?, &rows, out, reasons)))
}

fn main() -> ExitCode {
    let arguments: Vec<OsString> = std::env::args_os().skip(1).collect();
    ExitCode::from(run(&arguments, &mut io::stdin().lock(), &mut io::BufWriter::new(io::stdout().lock()), &mut io::stderr()))
}
