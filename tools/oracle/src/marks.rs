//! Sets of marked cells as 256-bit numbers: cell (row, column) is bit 16 * row + column. In text
//! they are hexadecimal with no zeros in front.

use crate::board::RectangularBoard;
use std::fmt;

/// Four words, the highest first, so that sets are ordered as their numbers are.
#[derive(Clone, Copy, PartialEq, Eq, PartialOrd, Ord)]
pub struct Marks([u64; 4]);

impl Marks {
    /// Reads 1 to 64 hexadecimal digits.
    pub fn read(text: &str) -> Result<Marks, String> {
        if text.is_empty() || text.len() > 64 || !text.bytes().all(|c| c.is_ascii_hexdigit()) {
            return Err(format!("not 1 to 64 hexadecimal digits: {text}"));
        }
        let digits = format!("{text:0>64}");
        let word = |i: usize| u64::from_str_radix(&digits[16 * i..16 * i + 16], 16).unwrap();
        Ok(Marks([word(0), word(1), word(2), word(3)]))
    }

    /// The marks of a board of at most 16 by 16 cells, fixed and laid together.
    pub fn of(board: &RectangularBoard) -> Marks {
        assert!(board.width <= 16 && board.height <= 16);
        let mut words = [0; 4];
        for (row, cells) in board.board.iter().enumerate() {
            for (column, marked) in cells.iter().enumerate() {
                let bit = 16 * row + column;
                words[3 - bit / 64] |= u64::from(*marked) << (bit % 64);
            }
        }
        Marks(words)
    }

    pub fn has(&self, row: usize, column: usize) -> bool {
        let bit = 16 * row + column;
        self.0[3 - bit / 64] >> (bit % 64) & 1 == 1
    }

    /// The marks that another set doesn't have.
    pub fn without(&self, other: Marks) -> Marks {
        Marks(std::array::from_fn(|i| self.0[i] & !other.0[i]))
    }
}

impl fmt::Display for Marks {
    fn fmt(&self, f: &mut fmt::Formatter) -> fmt::Result {
        let digits: String = self.0.iter().map(|word| format!("{word:016x}")).collect();
        let shown = digits.trim_start_matches('0');
        f.write_str(if shown.is_empty() { "0" } else { shown })
    }
}

/// A board's marks as text.
pub fn hex(board: &RectangularBoard) -> String {
    Marks::of(board).to_string()
}
