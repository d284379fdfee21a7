//! What the programs that say something of a sheet share: where the sheet comes from, and the exit status.

use std::ffi::OsString;
use std::fs;
use std::io::{self, Read};
use std::path::Path;

/// The bytes of the file that is named, or of the input where none is. More than one name is refused with the usage.
pub fn sheet(arguments: &[OsString], input: &mut impl Read, usage: &str) -> io::Result<Vec<u8>> {
    match arguments {
        [] => {
            let mut bytes = Vec::new();
            input.read_to_end(&mut bytes)?;
            Ok(bytes)
        }
        [file] => fs::read(file).map_err(|error| io::Error::new(error.kind(), format!("{}: {error}", Path::new(file).display()))),
        _ => Err(io::Error::new(io::ErrorKind::InvalidInput, format!("usage: {usage}"))),
    }
}

/// 0 for a sheet that is accepted, 1 for one that is not, and 2 where none could be read, which is said.
pub fn exit_status(accepted: io::Result<bool>) -> u8 {
    match accepted {
        Ok(accepted) => u8::from(!accepted),
        Err(error) => {
            eprintln!("{error}");
            2
        }
    }
}
