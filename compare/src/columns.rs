//! What a run must have met, counted.

/// Counts, each with the name of what it counts.
pub trait Columns {
    const NAMES: &'static [&'static str];

    fn counts(&self) -> &[u64];

    fn counts_mut(&mut self) -> &mut [u64];

    /// Of each column whether it was met once more.
    fn count(&mut self, met: &[bool]) {
        self.counts_mut().iter_mut().zip(met).for_each(|(count, met)| *count += u64::from(*met));
    }

    fn add(&mut self, other: &Self) {
        self.counts_mut().iter_mut().zip(other.counts()).for_each(|(sum, count)| *sum += count);
    }

    /// What was not met, if all of it must be.
    fn missing(&self) -> Vec<&'static str> {
        Self::NAMES.iter().zip(self.counts()).filter(|(_, count)| **count == 0).map(|(name, _)| *name).collect()
    }

    /// What was met, and how often.
    fn text(&self) -> String {
        Self::NAMES.iter().zip(self.counts()).map(|(name, count)| format!("{name} {count}")).collect::<Vec<_>>().join("; ")
    }
}

/// A type that counts how often each of the `COLUMNS` of its module was met.
macro_rules! counts {
    ($name:ident) => {
        /// How often each was met.
        #[derive(Clone, Copy)]
        pub struct $name([u64; COLUMNS.len()]);

        impl Default for $name {
            fn default() -> Self {
                $name([0; COLUMNS.len()])
            }
        }

        impl $crate::columns::Columns for $name {
            const NAMES: &'static [&'static str] = &COLUMNS;

            fn counts(&self) -> &[u64] {
                &self.0
            }

            fn counts_mut(&mut self) -> &mut [u64] {
                &mut self.0
            }
        }
    };
}

pub(crate) use counts;
