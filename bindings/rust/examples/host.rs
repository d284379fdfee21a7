//! A host that reads a sheet from standard input, asks for the verdict, with `--strict` the strict one, and for a mask (the argument, in hexadecimal digits; 1
//! without it) its regions, whether each may stay where it is, or why not, and its page-table region. Of addresses (further arguments, in hexadecimal digits) it says
//! which region owns each, by an index that it makes once. It writes what examples/host.c of the repository does, and a refusal's reason to standard error.

use sapyullu::{relocations, strict_verdict, verdict, BaseCheck, Refusal, RegionIndex};
use std::io::Read;
use std::process::ExitCode;

/// One byte more than the longest sheet, so that a longer input is refused, not cut.
const MOST_BYTES: u64 = 67_108_865;

fn answer(sheet: &[u8], strict: bool, mask: u32, addresses: &[u64]) -> Result<(), Refusal> {
    let counts = if strict { strict_verdict(sheet)? } else { verdict(sheet)? };
    println!("{}", counts.line());
    let found = relocations(sheet, mask)?;
    for (number, region) in found.regions.iter().enumerate() {
        let (base, size) = (region.base_gpa, region.size);
        let stays = match region.relocation_base_valid(base) {
            BaseCheck::Valid => "yes".to_string(),
            reason => format!("no ({reason})"),
        };
        let holds = u8::from(region.contains(base));
        println!("region {number}: base {base:#x} size {size:#x}, may stay: {stays}, holds its base: {holds}");
    }
    if let Some(table) = found.page_table {
        println!("page table: gpa {:#x} size {:#x} used {:#x}", table.gpa, table.size, table.used_size);
    }
    let index = RegionIndex::new(sheet, mask)?;
    for &gpa in addresses {
        let owner = index.region_of(gpa).map_or("no region".to_string(), |row| format!("row {row}"));
        println!("address {gpa:#x}: {owner}");
    }
    Ok(())
}

fn main() -> ExitCode {
    let mut arguments = std::env::args().skip(1).peekable();
    let strict = arguments.next_if_eq("--strict").is_some();
    let mask = u32::from_str_radix(&arguments.next().unwrap_or("1".to_string()), 16);
    let addresses: Result<Vec<u64>, _> = arguments.map(|digits| u64::from_str_radix(&digits, 16)).collect();
    let mut sheet = Vec::new();
    let read = std::io::stdin().take(MOST_BYTES).read_to_end(&mut sheet);
    let (Ok(mask), Ok(addresses), Ok(_)) = (mask, addresses, read) else {
        eprintln!("usage: host [--strict] [MASK [ADDRESS..]] < SHEET");
        return ExitCode::from(2);
    };
    match answer(&sheet, strict, mask, &addresses) {
        Ok(()) => ExitCode::SUCCESS,
        Err(refusal) => {
            println!("{}", refusal.line());
            eprintln!("{refusal}");
            ExitCode::FAILURE
        }
    }
}
