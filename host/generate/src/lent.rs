//! Memory that is lent to a call, with a border on either side that shows whether the call kept
//! within.

/// Cells on either side of what is lent. The number is odd, so that bytes are lent at an odd address.
const BORDER: usize = 63;

/// Lent cells between two borders.
pub struct Lent<T> {
    cells: Vec<T>,
    length: usize,
    border: T,
}

impl<T: Copy + PartialEq> Lent<T> {
    /// Lends a copy of the content; the borders are filled with one value.
    pub fn new(content: &[T], border: T) -> Lent<T> {
        let mut cells = vec![border; BORDER];
        cells.extend(content);
        cells.extend([border; BORDER]);
        Lent {
            cells,
            length: content.len(),
            border,
        }
    }

    /// The cells that are lent.
    pub fn cells(&mut self) -> &mut [T] {
        &mut self.cells[BORDER..BORDER + self.length]
    }

    /// The content after a call.
    ///
    /// # Panics
    /// If a border has changed.
    pub fn back(self) -> Vec<T> {
        let (before, rest) = self.cells.split_at(BORDER);
        let (content, after) = rest.split_at(self.length);
        let whole = |border: &[T]| border.iter().all(|cell| *cell == self.border);
        assert!(
            whole(before) && whole(after),
            "the call wrote outside of what it was lent"
        );
        content.to_vec()
    }
}
