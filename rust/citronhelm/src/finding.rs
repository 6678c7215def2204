//! Findings.

use std::fmt;

/// What a check of a sheet finds. Rows are those of the normal form, from 1.
#[derive(Clone, Copy, Debug, PartialEq, Eq, PartialOrd, Ord, Hash)]
pub enum Finding {
    /// The root's activator is not 1 in cycle 0.
    Root,
    /// A monitor fails.
    Failed {
        /// The lowest row that fails in that cycle.
        row: u8,
        /// The earliest cycle in which one fails, counted from 0 along the endless take.
        cycle: u32,
    },
    /// A looped take: a row's accept stops returning.
    Starved {
        /// The lowest such row.
        row: u8,
    },
    /// An open take: a row is pending in the last cycle.
    Pending {
        /// The lowest such row.
        row: u8,
    },
    /// None of these: the sheet passes.
    Passes,
}

impl fmt::Display for Finding {
    /// A finding in words.
    ///
    /// ```
    /// assert_eq!(citronhelm::Finding::Failed { row: 4, cycle: 0 }.to_string(), "failed in row 4, cycle 0");
    /// ```
    fn fmt(&self, f: &mut fmt::Formatter<'_>) -> fmt::Result {
        match self {
            Finding::Root => write!(f, "root not set in cycle 0"),
            Finding::Failed { row, cycle } => write!(f, "failed in row {row}, cycle {cycle}"),
            Finding::Starved { row } => write!(f, "starved in row {row}"),
            Finding::Pending { row } => write!(f, "pending in row {row}"),
            Finding::Passes => write!(f, "passes"),
        }
    }
}

impl Finding {
    /// The finding that the library answers with this number: which one in the lowest byte, the row in the next, the cycle above.
    pub(crate) fn numbered(answer: u64) -> Finding {
        let [finding, row, ..] = answer.to_le_bytes();
        let cycle = (answer >> 16) as u32;
        match finding {
            1 => Finding::Root,
            2 => Finding::Failed { row, cycle },
            3 => Finding::Starved { row },
            4 => Finding::Pending { row },
            5 => Finding::Passes,
            _ => unreachable!("findings go from 1 to 5"),
        }
    }
}

#[cfg(test)]
mod tests {
    use super::*;

    #[test]
    fn answers_are_taken_apart() {
        assert_eq!(Finding::numbered(1), Finding::Root);
        assert_eq!(Finding::numbered(510 << 16 | 128 << 8 | 2), Finding::Failed { row: 128, cycle: 510 });
        assert_eq!(Finding::numbered(3 << 8 | 3), Finding::Starved { row: 3 });
        assert_eq!(Finding::numbered(3 << 8 | 4), Finding::Pending { row: 3 });
        assert_eq!(Finding::numbered(5), Finding::Passes);
    }
}
