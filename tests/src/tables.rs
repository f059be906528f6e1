//! Runs over files of tables: the named ones, every short length, each unknown book, the largest, and random damage.

use crate::cases;
use crate::demo;
use crate::files::{head, Table};
use crate::program::Program;
use crate::random::Random;
use crate::report::Report;
use crate::rules::{refused, said_of, sizes};

/// Files by name, with the answer written out. The rules read once more have to give the same.
pub fn named(report: &mut Report, stemma: &Program) {
    for (name, file, expected) in cases::all() {
        let mut differences: Vec<String> = stemma.table(&file, expected).into_iter().collect();
        if said_of(&file) != expected {
            differences.push(format!("the rules read once more say {:?}", said_of(&file)));
        }
        report.test(name, 1, &differences);
    }
}

/// Every length from 0 to 40 bytes, for sizes around each limit.
pub fn lengths(report: &mut Report, stemma: &Program) {
    let mut files = Vec::new();
    for books in [0, 1, 2, 8, 63, 64, 65, 255] {
        for places in [0, 1, 2, 3, 4, 5, 256, 2048, 2049, 65535] {
            for length in 0..=40 {
                for filling in [0, 1, 255] {
                    let mut file = head(books, places);
                    file.resize(length.max(3), filling);
                    file.truncate(length);
                    files.push(file);
                }
            }
        }
    }
    files.sort();
    files.dedup();
    sweep(report, stemma, "every length from 0 to 40 bytes, for sizes around the limits", files);
}

/// For each number of books, a row with the last book that is there or one that is not, at each of three places.
pub fn strangers(report: &mut Report, stemma: &Program) {
    let mut files = Vec::new();
    for books in 1..=64 {
        for book in [books - 1, books, books + 1, 63] {
            for place in 0..3 {
                let mut table = Table::of_sets(books, &[&[], &[], &[]]);
                table.ones[place].extend((book < 64).then_some(book));
                files.push(table.file());
            }
        }
    }
    sweep(report, stemma, "the last known and the first unknown book, for each number of books", files);
}

/// The largest table, whole, a byte off, and with a stranger at its last place only.
pub fn largest(report: &mut Report, stemma: &Program) {
    let mut random = Random::new(2048);
    let mut full = head(64, 2048);
    full.resize_with(3 + 8 * 2048, || random.next() as u8);
    let mut known = full.clone();
    known[0] = 63;
    known[3..].chunks_mut(8).for_each(|row| row[7] &= 127);
    let mut strange = known.clone();
    strange[3 + 8 * 2047 + 7] |= 128;
    let short = full[..full.len() - 1].to_vec();
    let long = [&full[..], &[0]].concat();
    let expected = [
        (full, sizes(64, 2048)),
        (known, sizes(63, 2048)),
        (strange, refused(4, 2047)),
        (short, refused(3, 3 + 8 * 2048 - 1)),
        (long, refused(3, 3 + 8 * 2048 + 1)),
    ];
    let differences: Vec<String> = expected.iter().filter_map(|(file, said)| stemma.table(file, *said)).collect();
    report.test("the largest table", expected.len(), &differences);
}

/// Tables within the limits, and what damage makes of them.
pub fn damaged(report: &mut Report, stemma: &Program) {
    let mut random = Random::new(41);
    let files = (0..3000).map(|_| damage(&mut random)).collect();
    sweep(report, stemma, "random tables, most of them damaged", files);
}

fn damage(random: &mut Random) -> Vec<u8> {
    let books = 1 + random.below(64);
    let places = random.below(12);
    let mut file = demo::copied(random, books, places).file();
    for _ in 0..random.below(3) {
        let at = random.below(file.len().max(1));
        match random.below(6) {
            0 => file.truncate(at),
            1 => file.insert(at.min(file.len()), random.next() as u8),
            2 if at < file.len() => file[at] = random.next() as u8,
            3 if at < file.len() => file[at] ^= 1 << random.below(8),
            4 if !file.is_empty() => file[0] = random.below(70) as u8,
            _ => file.extend([0; 8]),
        }
    }
    file
}

/// One test over many files, each answered as the rules read once more say. Both kinds of answer have to occur.
fn sweep(report: &mut Report, stemma: &Program, name: &str, files: Vec<Vec<u8>>) {
    let mut differences: Vec<String> = files.iter().filter_map(|file| stemma.table(file, said_of(file))).collect();
    let taken = files.iter().filter(|file| said_of(file).status() == 0).count();
    if taken == 0 || taken == files.len() {
        differences.push(format!("{taken} of {} files are within the rules", files.len()));
    }
    report.test(name, files.len(), &differences);
}
