//! The rules for a table's file, read once more and in the plainest way.

/// What the program is to say of a file.
#[derive(Clone, Copy, PartialEq, Eq, Debug)]
pub enum Said {
    Sizes { books: usize, places: usize },
    Refused { number: usize, place: usize },
}

impl Said {
    pub fn text(self) -> String {
        match self {
            Said::Sizes { books, places } => format!("books {books}, places {places}\n"),
            Said::Refused { number, place } => format!("refused {number} at {place}\n"),
        }
    }

    pub fn status(self) -> i32 {
        match self {
            Said::Sizes { .. } => 0,
            Said::Refused { .. } => 1,
        }
    }
}

pub fn sizes(books: usize, places: usize) -> Said {
    Said::Sizes { books, places }
}

pub fn refused(number: usize, place: usize) -> Said {
    Said::Refused { number, place }
}

pub fn said_of(file: &[u8]) -> Said {
    let Some(&books) = file.first() else {
        return refused(1, 0);
    };
    let books = books as usize;
    if !(1..=64).contains(&books) {
        return refused(1, 0);
    }
    let (Some(&low), Some(&high)) = (file.get(1), file.get(2)) else {
        return refused(2, 1);
    };
    let places = low as usize + 256 * high as usize;
    if places > 2048 {
        return refused(2, 1);
    }
    if file.len() - 3 != 8 * places {
        return refused(3, file.len());
    }
    for place in 0..places {
        let row = &file[3 + 8 * place..][..8];
        for book in books..64 {
            if row[book / 8] >> (book % 8) & 1 == 1 {
                return refused(4, place);
            }
        }
    }
    sizes(books, places)
}
