//! Puts a sheet into words, row by row, and says whether it is accepted, or what is wrong with it and what to do about it:
//!
//! ```sh
//! cargo run --example explain -- FILE
//! cargo run --example explain < FILE
//! cargo run --example explain -- --strict FILE
//! ```
//!
//! The rows are shown as far as they can be read; it is the library that judges, with `--strict` by the strict verdict. Exit status: 0 accepted, 1 refused, 2 no
//! sheet could be read.

mod command;

use sapyullu::{strict_verdict, verdict, Place};
use std::ffi::OsString;
use std::io::{self, Read, Write};
use std::process::ExitCode;

/// How a field's number is shown.
enum Show {
    Decimal,
    Hexadecimal,
    /// the name of this number, if it has one
    Name(&'static [&'static str]),
    /// the names of the bits that are set, the lowest first
    Bits(&'static [&'static str]),
}
use Show::{Bits, Decimal, Hexadecimal, Name};

/// A field of a body: its name, its width in bytes, and how it is shown.
type Field = (&'static str, usize, Show);

/// A row's kind.
struct Kind {
    number: u32,
    name: &'static str,
    fields: &'static [Field],
    /// what may follow the fields, "" for nothing
    opaque: &'static str,
}

const fn kind(number: u32, name: &'static str, fields: &'static [Field], opaque: &'static str) -> Kind {
    Kind { number, name, fields, opaque }
}

const MASK: Field = ("mask", 4, Hexadecimal);
const GPA: Field = ("gpa", 8, Hexadecimal);
const SIZE: Field = ("size", 8, Hexadecimal);
const VP_INDEX: Field = ("VP index", 2, Decimal);
const VTL: Field = ("VTL", 1, Decimal);
const AREA: Field = ("area", 4, Decimal);
const PLATFORM_TYPE: Field = ("type", 1, Name(&["NATIVE", "VSM_ISOLATION", "SEV_SNP", "TDX", "SEV", "SEV_ES", "CCA"]));
const PAGE_TYPE: Field = ("type", 2, Name(&["NORMAL", "SECRETS", "CPUID_DATA", "CPUID_XF"]));
const REGION_FLAGS: Field = ("flags", 1, Bits(&["VTL2", "RIP", "GDTR"]));
const PARAMETER: &[Field] = &[AREA, ("offset", 4, Hexadecimal)];
const LENGTH: Field = ("bytes", 4, Hexadecimal);

const KINDS: &[Kind] = &[
    kind(
        1,
        "SupportedPlatform",
        &[MASK, ("highest VTL", 1, Decimal), PLATFORM_TYPE, ("version", 2, Decimal), ("shared GPA boundary", 8, Hexadecimal)],
        "",
    ),
    kind(16, "GuestPolicy", &[("policy", 8, Hexadecimal), MASK], ""),
    kind(
        17,
        "CcaPolicy",
        &[
            MASK,
            ("required zeroes", 8, Hexadecimal),
            ("required ones", 8, Hexadecimal),
            ("hash algorithm", 1, Decimal),
            ("LFA policy", 1, Decimal),
        ],
        "",
    ),
    kind(
        18,
        "RelocatableRegion",
        &[
            MASK,
            ("alignment", 8, Hexadecimal),
            GPA,
            SIZE,
            ("minimum", 8, Hexadecimal),
            ("maximum", 8, Hexadecimal),
            REGION_FLAGS,
            VP_INDEX,
            VTL,
        ],
        "",
    ),
    kind(19, "PageTableRelocationRegion", &[MASK, GPA, SIZE, ("used size", 8, Hexadecimal), VP_INDEX, VTL], ""),
    kind(32, "PageData", &[GPA, MASK, ("flags", 4, Hexadecimal), PAGE_TYPE], "data"),
    kind(33, "ParameterArea", &[("bytes", 8, Hexadecimal), AREA], "initial data"),
    kind(34, "VpCount", PARAMETER, ""),
    kind(35, "EnvironmentInfo", PARAMETER, ""),
    kind(36, "Srat", PARAMETER, ""),
    kind(37, "Madt", PARAMETER, ""),
    kind(38, "Slit", PARAMETER, ""),
    kind(39, "Pptt", PARAMETER, ""),
    kind(40, "MmioRanges", PARAMETER, ""),
    kind(41, "MemoryMap", PARAMETER, ""),
    kind(42, "CommandLine", PARAMETER, ""),
    kind(43, "DeviceTree", PARAMETER, ""),
    kind(44, "RequiredMemory", &[GPA, MASK, LENGTH, ("protectable", 1, Decimal)], ""),
    kind(45, "SnpVpContext", &[GPA, MASK, VP_INDEX], "saved state"),
    kind(46, "X64NativeVpContext", &[MASK, VP_INDEX], "context"),
    kind(47, "X64VbsVpContext", &[MASK, VTL], "registers"),
    kind(48, "AArch64VbsVpContext", &[MASK, VTL], "registers"),
    kind(49, "AArch64CcaVpContext", &[MASK, VP_INDEX], "context"),
    kind(50, "ParameterInsert", &[GPA, MASK, AREA], ""),
    kind(51, "ErrorRange", &[GPA, MASK, LENGTH], ""),
    kind(52, "SnpIdBlock", &[MASK], "ID block"),
    kind(53, "VbsMeasurement", &[MASK], "measurement"),
];

/// The little-endian number of these bytes, at most eight.
fn number(bytes: &[u8]) -> u64 {
    bytes.iter().rev().fold(0, |number, &byte| number << 8 | u64::from(byte))
}

impl Show {
    fn text(&self, number: u64) -> String {
        match self {
            Decimal => number.to_string(),
            Hexadecimal => format!("{number:#x}"),
            Name(names) => format!("{number} ({})", names.get(number as usize).unwrap_or(&"not known")),
            Bits(names) => {
                let mut set: Vec<&str> = (0..).zip(*names).filter(|(bit, _)| number >> bit & 1 != 0).map(|(_, &name)| name).collect();
                if number >> names.len() != 0 {
                    set.push("a bit that is not known");
                }
                format!("{number:#x} ({})", if set.is_empty() { "none".to_string() } else { set.join(", ") })
            }
        }
    }
}

/// The fields that are there, and what follows them or is missing.
fn body_text(kind: &Kind, mut body: &[u8]) -> String {
    let mut texts = Vec::new();
    for (name, width, show) in kind.fields {
        let Some((field, rest)) = body.split_at_checked(*width) else {
            texts.push(format!("no {name}: it ends too early"));
            return texts.join(", ");
        };
        texts.push(format!("{name} {}", show.text(number(field))));
        body = rest;
    }
    match (kind.opaque, body.len()) {
        ("", 0) => {}
        ("", more) => texts.push(format!("{more} bytes too many")),
        (what, bytes) => texts.push(format!("{bytes} bytes of {what}")),
    }
    texts.join(", ")
}

/// A row in words. `behind` is the sheet from the start of its body on.
fn row_text(kind: u32, length: u64, behind: &[u8]) -> String {
    let there = behind.len().min(usize::try_from(length).unwrap_or(usize::MAX));
    let cut = if (there as u64) < length { format!(" of which {there} are there") } else { String::new() };
    match KINDS.iter().find(|known| known.number == kind) {
        Some(known) => format!("kind {kind} {}, body of {length} bytes{cut}: {}", known.name, body_text(known, &behind[..there])),
        None => format!("kind {kind}, which is not known, body of {length} bytes{cut}"),
    }
}

fn head_text(head: &[u8; 16], bytes: usize) -> String {
    let arch = Name(&["X64", "AArch64"]).text(number(&head[1..2]));
    let [page_size, platforms, initializations, directives] = [4..8, 8..10, 10..12, 12..14].map(|field| number(&head[field]));
    let lists = format!("{platforms} platform, {initializations} initialization and {directives} directive rows");
    let zeroes = if [head[2], head[3], head[14], head[15]] == [0; 4] { "" } else { "; a reserved field is not 0" };
    format!("head: revision {}, architecture {arch}, page size {page_size}, {lists}{zeroes}; {bytes} bytes in all", head[0])
}

/// The head and the rows in words, a line each, as far as they can be read.
fn rows(sheet: &[u8], out: &mut impl Write) -> io::Result<()> {
    let Some(head) = sheet.first_chunk::<16>() else {
        return writeln!(out, "head: {} bytes, of which it takes 16", sheet.len());
    };
    writeln!(out, "{}", head_text(head, sheet.len()))?;
    let count: usize = [8..10, 10..12, 12..14].map(|field| number(&head[field]) as usize).iter().sum();
    let table = sheet[16..].chunks_exact(8).take(count);
    let (listed, mut at) = (table.len(), 16 + 8 * count);
    for (row, entry) in (1..).zip(table) {
        let (kind, length) = (number(&entry[..4]) as u32, number(&entry[4..]));
        let place = Place::of_row(sheet, row).map_or(String::new(), |place| format!(" ({place})"));
        writeln!(out, "row {row}{place}: {}", row_text(kind, length, sheet.get(at..).unwrap_or(&[])))?;
        at = at.saturating_add(usize::try_from(length).unwrap_or(usize::MAX));
    }
    match sheet.len().checked_sub(at) {
        _ if listed < count => writeln!(out, "the table of contents ends before row {}", listed + 1),
        None | Some(0) => Ok(()),
        Some(more) => writeln!(out, "{more} bytes follow the last body"),
    }
}

/// All that is to be said of a sheet, and whether it is accepted.
fn explain(sheet: &[u8], strict: bool, out: &mut impl Write) -> io::Result<bool> {
    rows(sheet, out)?;
    let answer = if strict { strict_verdict(sheet) } else { verdict(sheet) };
    match &answer {
        Ok(counts) => writeln!(out, "{}", counts.line())?,
        Err(refusal) => writeln!(out, "{}\n{refusal}\ncure: {}", refusal.line(), refusal.error.cure())?,
    }
    out.flush()?;
    Ok(answer.is_ok())
}

/// The exit status.
pub fn run(arguments: &[OsString], input: &mut impl Read, out: &mut impl Write) -> u8 {
    let (strict, file) = match arguments {
        [first, rest @ ..] if first == "--strict" => (true, rest),
        all => (false, all),
    };
    let sheet = command::sheet(file, input, "explain [--strict] [FILE], or explain [--strict] < FILE");
    command::exit_status(sheet.and_then(|sheet| explain(&sheet, strict, out)))
}

fn main() -> ExitCode {
    let arguments: Vec<OsString> = std::env::args_os().skip(1).collect();
    ExitCode::from(run(&arguments, &mut io::stdin().lock(), &mut io::BufWriter::new(io::stdout().lock())))
}
