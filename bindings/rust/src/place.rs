//! Where a row stands: its list, and its index there.

use std::fmt;

/// One of the three lists of headers, in the order of a sheet.
#[derive(Debug, Clone, Copy, PartialEq, Eq, PartialOrd, Ord, Hash)]
pub enum List {
    /// The platform headers.
    Platform,
    /// The initialization headers.
    Initialization,
    /// The directive headers.
    Directive,
}

impl List {
    pub(crate) const ALL: [List; 3] = [List::Platform, List::Initialization, List::Directive];
}

impl fmt::Display for List {
    fn fmt(&self, f: &mut fmt::Formatter<'_>) -> fmt::Result {
        f.write_str(match self {
            List::Platform => "platform",
            List::Initialization => "initialization",
            List::Directive => "directive",
        })
    }
}

/// The numbers of rows in the sheet's head, of each list. None where the sheet is too short to have a head.
pub(crate) fn row_counts(sheet: &[u8]) -> Option<[usize; 3]> {
    let head = sheet.get(..16)?;
    Some([8, 10, 12].map(|at| usize::from(u16::from_le_bytes([head[at], head[at + 1]]))))
}

/// A row's list and its index there, from 0, as in the `Vec` of headers that the list was made of.
#[derive(Debug, Clone, Copy, PartialEq, Eq, PartialOrd, Ord, Hash)]
pub struct Place {
    /// The list.
    pub list: List,
    /// The index in it, from 0.
    pub index: usize,
}

impl Place {
    /// The place of a row, which counts from 1 across the lists, by the numbers of rows in the sheet's head. None for row 0, for a row behind the last, and
    /// where the sheet is too short to have a head.
    ///
    /// ```
    /// use sapyullu::{List, Place};
    ///
    /// // two platform rows, three initialization rows, one directive row
    /// let head = [1, 0, 0, 0, 0, 0, 0, 0, 2, 0, 3, 0, 1, 0, 0, 0];
    /// assert_eq!(Place::of_row(&head, 5), Some(Place { list: List::Initialization, index: 2 }));
    /// assert_eq!(Place::of_row(&head, 5).unwrap().to_string(), "initialization header 2");
    /// assert_eq!(Place::of_row(&head, 7), None);
    /// ```
    pub fn of_row(sheet: &[u8], row: u64) -> Option<Place> {
        let counts = row_counts(sheet)?;
        let mut index = usize::try_from(row).ok()?.checked_sub(1)?;
        for (list, count) in List::ALL.into_iter().zip(counts) {
            if index < count {
                return Some(Place { list, index });
            }
            index -= count;
        }
        None
    }
}

impl fmt::Display for Place {
    fn fmt(&self, f: &mut fmt::Formatter<'_>) -> fmt::Result {
        write!(f, "{} header {}", self.list, self.index)
    }
}
