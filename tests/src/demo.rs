//! The files in demo/: the worked tables, and a made one of the size of a real edition's.

use crate::files::Table;
use crate::program::Program;
use crate::random::Random;
use crate::report::Report;
use crate::rules::said_of;
use std::fs;
use std::io;
use std::path::Path;

fn all() -> Vec<(&'static str, Table)> {
    vec![
        ("first.tbl", Table::of_sets(4, &[&[1, 2], &[2], &[3]])),
        ("second.tbl", Table::of_sets(3, &[])),
        ("second_empty.tbl", Table::of_sets(3, &[&[]])),
        ("third.tbl", Table::of_sets(4, &[&[1, 2], &[2, 3]])),
        ("fourth.tbl", Table::of_sets(5, &[&[1, 2, 3, 4], &[1, 2], &[3, 4], &[1, 2]])),
        ("fifth.tbl", Table::of_sets(6, &[&[1], &[2], &[3], &[4, 5], &[5]])),
        ("sixth.tbl", Table::of_sets(5, &[&[1, 2, 3], &[2, 3, 4], &[2]])),
        ("large.tbl", copied(&mut Random::new(1900), 41, 1900)),
    ]
}

/// A table as copying makes it, with each place changing once, so that no two of its places conflict. Some copies are
/// lost; a place changes on the way into a copy that is not the first, and each of the two readings may be the changed one.
pub fn copied(random: &mut Random, books: usize, places: usize) -> Table {
    let copies = 1 + books + books / 2;
    let source: Vec<usize> = (0..copies).map(|copy| if copy == 0 { 0 } else { random.below(copy) }).collect();
    let homes: Vec<usize> = (0..books).map(|_| random.below(copies)).collect();
    let ones = (0..places).map(|_| readers(random, &source, &homes)).collect();
    Table { books, ones }
}

/// The books that read 1 at a place that changes into a random copy.
fn readers(random: &mut Random, source: &[usize], homes: &[usize]) -> Vec<usize> {
    let change = 1 + random.below(source.len() - 1);
    let changed_is_one = random.coin();
    let below = |mut copy: usize| {
        while copy > change {
            copy = source[copy];
        }
        copy == change
    };
    (0..homes.len()).filter(|&book| below(homes[book]) == changed_is_one).collect()
}

pub fn write(dir: &Path) -> io::Result<()> {
    for (name, table) in all() {
        fs::write(dir.join(name), table.file())?;
    }
    Ok(())
}

/// The files are there as they are made here, and are answered as the rules say.
pub fn as_made(report: &mut Report, stemma: &Program, dir: &Path) {
    let files = all();
    let mut differences = Vec::new();
    for (name, table) in &files {
        let made = table.file();
        match fs::read(dir.join(name)) {
            Ok(file) if file == made => differences.extend(stemma.table(&file, said_of(&file))),
            Ok(_) => differences.push(format!("{name} is not as it is made")),
            Err(error) => differences.push(format!("{name}: {error}")),
        }
    }
    report.test("the files in demo/", files.len(), &differences);
    let (name, large) = files.last().expect("a table of a real edition's size");
    let crossing: Vec<String> = crossings(large).map(|(p, q)| format!("places {p} and {q} of {name}")).collect();
    report.test("no two places of the large table contradict each other", large.ones.len(), &crossing);
}

/// The pairs of places at which books read in all four ways: otherwise than book 0 at both, at one, at the other, at neither.
fn crossings(table: &Table) -> impl Iterator<Item = (usize, usize)> + '_ {
    let otherwise: Vec<Vec<bool>> = table
        .ones
        .iter()
        .map(|ones| {
            let reads_one = |book: usize| ones.contains(&book);
            (0..table.books).map(|book| reads_one(book) != reads_one(0)).collect()
        })
        .collect();
    let cross = move |p: usize, q: usize| {
        let some = |at_p: bool, at_q: bool| {
            (0..table.books).any(|book| (otherwise[p][book], otherwise[q][book]) == (at_p, at_q))
        };
        some(true, true) && some(true, false) && some(false, true)
    };
    let places = table.ones.len();
    (0..places).flat_map(move |p| (p + 1..places).map(move |q| (p, q))).filter(move |&(p, q)| cross(p, q))
}
