//! Sheets as heads and rows, for making and changing them: document 01's layout, without any rule.

/// The fields of a kind's body in order, each with its width in bytes. What follows them is data or opaque.
pub fn fields(kind: u32) -> &'static [(&'static str, usize)] {
    match kind {
        1 => &[("mask", 4), ("highest_vtl", 1), ("type", 1), ("version", 2), ("boundary", 8)],
        16 => &[("policy", 8), ("mask", 4)],
        17 => &[("mask", 4), ("zeroes", 8), ("ones", 8)],
        18 => {
            &[("mask", 4), ("alignment", 8), ("gpa", 8), ("size", 8), ("minimum", 8), ("maximum", 8), ("flags", 1), ("vp", 2), ("vtl", 1)]
        }
        19 => &[("mask", 4), ("gpa", 8), ("size", 8), ("used", 8), ("vp", 2), ("vtl", 1)],
        32 => &[("gpa", 8), ("mask", 4), ("flags", 4), ("type", 2)],
        33 => &[("bytes", 8), ("area", 4)],
        34..=43 => &[("area", 4), ("offset", 4)],
        44 => &[("gpa", 8), ("mask", 4), ("bytes", 4), ("protectable", 1)],
        45 => &[("gpa", 8), ("mask", 4), ("vp", 2)],
        46 | 49 => &[("mask", 4), ("vp", 2)],
        47 | 48 => &[("mask", 4), ("vtl", 1)],
        50 => &[("gpa", 8), ("mask", 4), ("area", 4)],
        51 => &[("gpa", 8), ("mask", 4), ("bytes", 4)],
        52 | 53 => &[("mask", 4)],
        _ => &[],
    }
}

/// All kinds.
pub fn kinds() -> impl Iterator<Item = u32> {
    (1..54).filter(|&kind| !fields(kind).is_empty())
}

/// The list that a kind belongs to.
pub fn list_of(kind: u32) -> usize {
    match kind {
        0..=15 => 0,
        16..=31 => 1,
        _ => 2,
    }
}

/// Whether data or opaque bytes of any length may follow the fields.
pub fn is_open(kind: u32) -> bool {
    matches!(kind, 32 | 33 | 45..=49 | 52 | 53)
}

/// The bytes that the fields take.
pub fn fields_length(kind: u32) -> usize {
    fields(kind).iter().map(|field| field.1).sum()
}

#[derive(Clone, Debug, PartialEq, Eq)]
pub struct Row {
    pub kind: u32,
    pub body: Vec<u8>,
}

impl Row {
    /// A row with these numbers in its fields, in order, and the least body.
    pub fn new(kind: u32, values: &[u64]) -> Row {
        assert_eq!(values.len(), fields(kind).len(), "kind {kind}");
        let mut body = Vec::new();
        for ((_, width), value) in fields(kind).iter().zip(values) {
            body.extend_from_slice(&value.to_le_bytes()[..*width]);
        }
        if kind == 17 {
            body.extend_from_slice(&[0, 0]);
        }
        Row { kind, body }
    }

    pub fn with_tail(mut self, tail: &[u8]) -> Row {
        self.body.extend_from_slice(tail);
        self
    }

    /// Where a field stands in the body, if the body reaches that far.
    fn place(&self, name: &str) -> Option<std::ops::Range<usize>> {
        let mut at = 0;
        for &(field, width) in fields(self.kind) {
            if field == name && at + width <= self.body.len() {
                return Some(at..at + width);
            }
            at += width;
        }
        None
    }

    pub fn get(&self, name: &str) -> Option<u64> {
        let place = self.place(name)?;
        Some(self.body[place].iter().rev().fold(0, |number, &byte| number << 8 | u64::from(byte)))
    }

    pub fn set(&mut self, name: &str, value: u64) {
        if let Some(place) = self.place(name) {
            let width = place.len();
            self.body[place].copy_from_slice(&value.to_le_bytes()[..width]);
        }
    }

    /// The area that a directive names: kinds 33 to 43 and 50.
    pub fn area(&self) -> Option<u64> {
        self.get("area")
    }
}

#[derive(Clone, Debug, PartialEq, Eq)]
pub struct Image {
    pub revision: u8,
    pub arch: u8,
    pub reserved: u16,
    pub page_size: u32,
    pub reserved2: u16,
    pub lists: [Vec<Row>; 3],
    /// the head's counts, where they are not those of the lists
    pub counts: Option<[u16; 3]>,
    /// bytes behind the last body
    pub left_over: Vec<u8>,
}

impl Image {
    /// An image of revision 1, or of revision 2 and page size 4096 on AArch64.
    pub fn new(arch: u8, lists: [Vec<Row>; 3]) -> Image {
        let (revision, page_size) = if arch == 0 { (1, 0) } else { (2, 4096) };
        Image { revision, arch, reserved: 0, page_size, reserved2: 0, lists, counts: None, left_over: Vec::new() }
    }

    pub fn rows(&self) -> impl Iterator<Item = &Row> {
        self.lists.iter().flatten()
    }

    pub fn bytes(&self) -> Vec<u8> {
        let mut out = vec![self.revision, self.arch];
        out.extend_from_slice(&self.reserved.to_le_bytes());
        out.extend_from_slice(&self.page_size.to_le_bytes());
        let counts = self.counts.unwrap_or_else(|| [0, 1, 2].map(|list| self.lists[list].len() as u16));
        for count in counts {
            out.extend_from_slice(&count.to_le_bytes());
        }
        out.extend_from_slice(&self.reserved2.to_le_bytes());
        for row in self.rows() {
            out.extend_from_slice(&row.kind.to_le_bytes());
            out.extend_from_slice(&(row.body.len() as u32).to_le_bytes());
        }
        for row in self.rows() {
            out.extend_from_slice(&row.body);
        }
        out.extend_from_slice(&self.left_over);
        out
    }

    /// The image of these bytes, if they have a head and a table. A body that ends early is as long as it is.
    pub fn parse(bytes: &[u8]) -> Option<Image> {
        let number = |at: usize, width: usize| {
            let part = bytes.get(at..at + width)?;
            Some(part.iter().rev().fold(0, |number, &byte| number << 8 | usize::from(byte)))
        };
        let counts = [number(8, 2)?, number(10, 2)?, number(12, 2)?];
        let mut image = Image::new(0, Default::default());
        (image.revision, image.arch) = (bytes[0], bytes[1]);
        (image.reserved, image.page_size, image.reserved2) = (number(2, 2)? as u16, number(4, 4)? as u32, number(14, 2)? as u16);
        let mut at = 16 + 8 * counts.iter().sum::<usize>();
        let mut entry = 16;
        for (list, count) in counts.into_iter().enumerate() {
            for _ in 0..count {
                let (kind, length) = (number(entry, 4)? as u32, number(entry + 4, 4)?);
                let end = (at + length).min(bytes.len());
                image.lists[list].push(Row { kind, body: bytes.get(at..end)?.to_vec() });
                (entry, at) = (entry + 8, end);
            }
        }
        image.left_over = bytes.get(at..)?.to_vec();
        Some(image)
    }
}

/// Hexadecimal digits, two for a byte.
pub fn hex(bytes: &[u8]) -> String {
    bytes.iter().map(|byte| format!("{byte:02x}")).collect()
}
