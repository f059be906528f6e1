//! Tables, and the files that hold them.

/// For each place the books that read 1, of so many books.
#[derive(Clone)]
pub struct Table {
    pub books: usize,
    pub ones: Vec<Vec<usize>>,
}

impl Table {
    /// The table in which the books of each set read 1 at its place; book 0 reads 0.
    pub fn of_sets(books: usize, sets: &[&[usize]]) -> Table {
        let ones = sets.iter().map(|set| set.to_vec()).collect();
        Table { books, ones }
    }

    /// The file, also of a table that is not within the limits.
    pub fn file(&self) -> Vec<u8> {
        let mut file = head(self.books, self.ones.len());
        for ones in &self.ones {
            let mut row = [0u8; 8];
            for book in ones {
                row[book / 8] |= 1 << (book % 8);
            }
            file.extend(row);
        }
        file
    }
}

/// The three bytes with which a file begins.
pub fn head(books: usize, places: usize) -> Vec<u8> {
    vec![books as u8, (places % 256) as u8, (places / 256) as u8]
}
