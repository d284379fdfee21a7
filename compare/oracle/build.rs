//! Cuts the decision code of igvm 0.5.0 out of its source, item by item and unchanged, into OUT_DIR.
//! The environment variable IGVM_SRC names the folder of the crate, or its src.

use std::path::{Path, PathBuf};
use std::{env, fs};

/// One item to cut.
enum Cut {
    /// the item that begins with these words, at the top level
    Item(&'static str),
    /// of the `impl` block of this type: these functions
    Methods(&'static str, &'static [&'static str]),
}
use Cut::{Item, Methods};

const LIB: &[Cut] = &[
    Item("enum IgvmPlatformHeader"),
    Methods("IgvmPlatformHeader", &["validate"]),
    Item("enum IgvmInitializationHeader"),
    Methods("IgvmInitializationHeader", &["validate", "compatibility_mask"]),
    Item("enum IgvmDirectiveHeader"),
    Item("enum BinaryHeaderError"),
    Methods("IgvmDirectiveHeader", &["validate"]),
    Item("enum Error"),
    Item("enum Arch"),
    Item("enum IgvmRevision"),
    Methods("IgvmRevision", &["arch", "page_size"]),
    Item("struct IgvmFile"),
    Item("struct IgvmRelocatableRegion"),
    Methods("IgvmRelocatableRegion", &["contains", "relocation_base_valid"]),
    Item("struct VpIdentifier"),
    Item("struct PageTableRegion"),
    Item("struct DirectiveHeaderValidationInfo"),
    Item("fn extract_individual_masks"),
    Methods(
        "IgvmFile",
        &["validate_platform_headers", "validate_initialization_headers", "validate_directive_headers", "new", "relocations"],
    ),
];

const HV_DEFS: &[Cut] = &[Item("enum Vtl"), Item("impl TryFrom<u8> for Vtl"), Item("impl From<Vtl> for u8")];

const PAGE_TABLE: &[Cut] = &[Item("struct PageTableRelocationBuilder"), Methods("PageTableRelocationBuilder", &["new"])];

const REGISTERS: &[Cut] = &[
    Item("struct TableRegister"),
    Item("struct SegmentRegister"),
    Item("enum X86Register"),
    Item("enum AArch64Register"),
    Item("struct UnsupportedRegister"),
];

const FILES: &[(&str, &[Cut])] = &[("lib.rs", LIB), ("hv_defs.rs", HV_DEFS), ("page_table.rs", PAGE_TABLE), ("registers.rs", REGISTERS)];

fn main() {
    println!("cargo:rerun-if-env-changed=IGVM_SRC");
    println!("cargo:rerun-if-changed=build.rs");
    let folder = source_folder();
    let out = PathBuf::from(env::var_os("OUT_DIR").unwrap());
    let mut origin = String::new();
    for (name, cuts) in FILES {
        let path = folder.join(name);
        println!("cargo:rerun-if-changed={}", path.display());
        let text = fs::read_to_string(&path).unwrap_or_else(|e| stop(&format!("{}: {e}", path.display())));
        let source = Source::new(name, &text);
        let mut cut_text = String::new();
        let mut items = 0;
        for cut in *cuts {
            items += source.cut(cut, &mut cut_text);
        }
        fs::write(out.join(name), &cut_text).unwrap();
        origin += &format!(
            "{name}: {items} items, {} of {} lines, FNV-1a {:016x}\n",
            cut_text.lines().count(),
            text.lines().count(),
            fnv1a(text.as_bytes())
        );
    }
    fs::write(out.join("origin.txt"), origin).unwrap();
}

/// The folder that holds lib.rs.
fn source_folder() -> PathBuf {
    let Some(given) = env::var_os("IGVM_SRC") else {
        stop("set IGVM_SRC to the source of crate igvm 0.5.0: the folder that holds lib.rs or src/lib.rs")
    };
    let given = Path::new(&given);
    for folder in [given.to_path_buf(), given.join("src")] {
        if folder.join("lib.rs").is_file() {
            return folder;
        }
    }
    stop(&format!("IGVM_SRC is {}: neither lib.rs nor src/lib.rs is there", given.display()))
}

fn stop(message: &str) -> ! {
    eprintln!("\n{message}\n");
    std::process::exit(1)
}

fn fnv1a(bytes: &[u8]) -> u64 {
    bytes.iter().fold(0xcbf2_9ce4_8422_2325, |hash, &b| (hash ^ u64::from(b)).wrapping_mul(0x100_0000_01b3))
}

/// A source file, and the same text with comments, strings and characters blanked out, byte for byte.
struct Source<'a> {
    name: &'a str,
    text: &'a str,
    code: Vec<u8>,
}

impl<'a> Source<'a> {
    fn new(name: &'a str, text: &'a str) -> Self {
        Source { name, text, code: blanked(text.as_bytes()) }
    }

    /// Appends what the cut names, and gives the number of items. Each must be there exactly once.
    fn cut(&self, cut: &Cut, out: &mut String) -> usize {
        match cut {
            Item(words) => {
                let at = self.only(words, 0..self.code.len());
                out.push_str(self.whole(at));
                1
            }
            Methods(of, names) => {
                let blocks = self.impl_blocks(of);
                out.push_str(&format!("impl {of} {{\n"));
                for name in *names {
                    let words = format!("fn {name}");
                    let found: Vec<usize> = blocks.iter().flat_map(|block| self.places(&words, block.clone())).collect();
                    let [at] = found[..] else { self.not_once(&format!("impl {of}: {words}"), found.len()) };
                    out.push_str(self.whole(at));
                }
                out.push_str("}\n");
                names.len()
            }
        }
    }

    fn not_once(&self, what: &str, count: usize) -> ! {
        stop(&format!("{}: `{what}` is there {count} times, not once: this is not the source of igvm 0.5.0", self.name))
    }

    fn only(&self, words: &str, range: std::ops::Range<usize>) -> usize {
        let places = self.places(words, range);
        let [at] = places[..] else { self.not_once(words, places.len()) };
        at
    }

    /// Where the words begin, in this range of the code and outside all braces that open in it.
    fn places(&self, words: &str, range: std::ops::Range<usize>) -> Vec<usize> {
        let mut depth = 0;
        let mut places = Vec::new();
        for at in range {
            match self.code[at] {
                b'{' => depth += 1,
                b'}' => depth -= 1,
                _ => {}
            }
            if depth == 0 && self.code[at..].starts_with(words.as_bytes()) && self.is_word(at, words.len()) {
                places.push(at);
            }
        }
        places
    }

    fn is_word(&self, at: usize, length: usize) -> bool {
        let part = |b: u8| b.is_ascii_alphanumeric() || b == b'_';
        (at == 0 || !part(self.code[at - 1])) && self.code.get(at + length).is_none_or(|&b| !part(b))
    }

    /// What stands between the braces of each `impl NAME {` at the top level.
    fn impl_blocks(&self, name: &str) -> Vec<std::ops::Range<usize>> {
        let words = format!("impl {name} {{");
        let inside = |at: usize| at + words.len()..self.end(at) - 1;
        self.places(&format!("impl {name}"), 0..self.code.len())
            .into_iter()
            .filter(|&at| self.code[at..].starts_with(words.as_bytes()))
            .map(inside)
            .collect()
    }

    /// The item whose keyword stands here: from the first of the attributes and comments above it to its closing brace or semicolon.
    fn whole(&self, at: usize) -> &'a str {
        let mut start = self.line_start(at);
        while start > 0 {
            let above = self.line_start(start - 1);
            let line = self.text[above..start].trim();
            if !(line.starts_with("#[") && line.ends_with(']') || line.starts_with("//")) {
                break;
            }
            start = above;
        }
        let end = self.end(at);
        let newline = self.text[end..].find('\n').map_or(self.text.len(), |n| end + n + 1);
        &self.text[start..newline]
    }

    fn line_start(&self, at: usize) -> usize {
        self.text[..at].rfind('\n').map_or(0, |n| n + 1)
    }

    /// The end of the item that begins here: behind its first semicolon outside brackets, or behind the brace that closes its first one.
    fn end(&self, at: usize) -> usize {
        let (mut brackets, mut braces) = (0, 0);
        for i in at..self.code.len() {
            match self.code[i] {
                b'(' | b'[' => brackets += 1,
                b')' | b']' => brackets -= 1,
                b'{' => braces += 1,
                b'}' => {
                    braces -= 1;
                    if braces == 0 {
                        return i + 1;
                    }
                }
                b';' if brackets == 0 && braces == 0 => return i + 1,
                _ => {}
            }
        }
        stop(&format!("{}: an item has no end", self.name))
    }
}

/// The text with everything blank in comments, strings and characters; newlines stay.
fn blanked(text: &[u8]) -> Vec<u8> {
    let mut code = Vec::with_capacity(text.len());
    let mut at = 0;
    while at < text.len() {
        let length = skipped(&text[at..]);
        if length == 0 {
            code.push(text[at]);
            at += 1;
        } else {
            code.extend(text[at..at + length].iter().map(|&b| if b == b'\n' { b } else { b' ' }));
            at += length;
        }
    }
    code
}

/// The length of the comment, string or character that begins here; 0 if none does.
fn skipped(rest: &[u8]) -> usize {
    let until = |from: usize, end: &[u8]| {
        let found = rest[from..].windows(end.len()).position(|w| w == end);
        found.map_or(rest.len(), |n| from + n + end.len())
    };
    match rest {
        [b'/', b'/', ..] => until(2, b"\n") - 1,
        [b'/', b'*', ..] => until(2, b"*/"),
        [b'r', b'"', ..] => until(2, b"\""),
        [b'r', b'#', b'"', ..] => until(3, b"\"#"),
        [b'"', ..] => quoted(rest, b'"'),
        [b'\'', b'\\', ..] => quoted(rest, b'\''),
        [b'\'', _, b'\'', ..] => 3,
        _ => 0,
    }
}

/// The length of what stands between two quotes, both included; a backslash takes the next byte with it.
fn quoted(rest: &[u8], quote: u8) -> usize {
    let mut at = 1;
    while at < rest.len() && rest[at] != quote {
        at += if rest[at] == b'\\' { 2 } else { 1 };
    }
    (at + 1).min(rest.len())
}
