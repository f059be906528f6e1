//! Files by name, each with its answer: tables that are read, and each refusal beside those before and after it.

use crate::files::{head, Table};
use crate::rules::{refused, sizes, Said};

pub type Case = (&'static str, Vec<u8>, Said);

pub fn all() -> Vec<Case> {
    let parts = [taken(), wrong_books(), wrong_places(), wrong_length(), unknown_book()];
    parts.into_iter().flatten().collect()
}

/// Four books and three places, in 27 bytes.
fn first() -> Vec<u8> {
    Table::of_sets(4, &[&[1, 2], &[2], &[3]]).file()
}

/// The same with some bytes put in the place of others.
fn first_with(bytes: &[(usize, u8)]) -> Vec<u8> {
    let mut file = first();
    bytes.iter().for_each(|&(at, byte)| file[at] = byte);
    file
}

/// A file with these sizes and whatever rows.
fn file(books: usize, places: usize, rows: &[u8]) -> Vec<u8> {
    [&head(books, places), rows].concat()
}

fn taken() -> Vec<Case> {
    vec![
        ("the first table", first(), sizes(4, 3)),
        ("one book and no place", head(1, 0), sizes(1, 0)),
        ("64 books, which all read 1", file(64, 1, &[255; 8]), sizes(64, 1)),
        ("one book, which reads 1", file(1, 1, &[1, 0, 0, 0, 0, 0, 0, 0]), sizes(1, 1)),
    ]
}

fn wrong_books() -> Vec<Case> {
    vec![
        ("an empty file", vec![], refused(1, 0)),
        ("no books", first_with(&[(0, 0)]), refused(1, 0)),
        ("65 books", first_with(&[(0, 65)]), refused(1, 0)),
        ("255 books", first_with(&[(0, 255)]), refused(1, 0)),
        ("no books and no number of places", vec![0], refused(1, 0)),
        ("no books and too many places", head(0, 2049), refused(1, 0)),
        ("65 books and a wrong length", file(65, 1, &[9]), refused(1, 0)),
        ("65 books and an unknown one", file(65, 1, &[255; 8]), refused(1, 0)),
    ]
}

fn wrong_places() -> Vec<Case> {
    vec![
        ("no number of places", vec![4], refused(2, 1)),
        ("half a number of places", vec![4, 0], refused(2, 1)),
        ("2,049 places", head(4, 2049), refused(2, 1)),
        ("2,049 places, all there", file(4, 2049, &[0; 8 * 2049]), refused(2, 1)),
        ("too many places and a wrong length", file(4, 65535, &[0; 9]), refused(2, 1)),
        ("too many places and an unknown book", file(4, 4096, &[255; 8]), refused(2, 1)),
    ]
}

fn wrong_length() -> Vec<Case> {
    let long = [&first()[..], &[0]].concat();
    let longer = [&first()[..], &[0; 8]].concat();
    let strange = [&first_with(&[(3, 16)])[..], &[0]].concat();
    let turned = file(4, 1, &[0; 8 * 256]);
    vec![
        ("a byte too few", first()[..26].to_vec(), refused(3, 26)),
        ("a byte too many", long, refused(3, 28)),
        ("a place too few", first()[..19].to_vec(), refused(3, 19)),
        ("a place too many", longer, refused(3, 35)),
        ("2,048 places and none of them there", head(4, 2048), refused(3, 3)),
        ("as many places as the size turned round says", turned, refused(3, 2051)),
        ("a wrong length and an unknown book", strange, refused(3, 28)),
    ]
}

fn unknown_book() -> Vec<Case> {
    let last = first_with(&[(26, 128)]);
    let two = first_with(&[(12, 1), (20, 1)]);
    vec![
        ("an unknown book, the next one", first_with(&[(3, 16)]), refused(4, 0)),
        ("an unknown book, the last that a row has", last, refused(4, 2)),
        ("unknown books at two places", two, refused(4, 1)),
    ]
}
