//! The yardstick of `bench/tables.sh`: compares the two texts of each statement of a script by a
//! table of weights, as the proved program does, in plain Rust. It reads the collations that the
//! catalog declares, of the kinds `general` and `table8`, and statements
//! `SELECT 'x' COLLATE NAME = 'y';` and `SELECT _latin1'x' COLLATE NAME = _latin1'y';`. It takes
//! the script's form for granted: no `;`, quote or backslash in a text, nothing that a header
//! escapes, and no text that is too long.

use std::collections::HashMap;
use std::io::{self, Write};
use std::process::ExitCode;
use std::{env, fs};

/// The weights of a collation.
enum Table {
    /// One for each code point up to FFFF.
    Codes(Vec<u16>),
    /// One for each byte.
    Bytes(Vec<u16>),
}

/// A statement's parts.
struct Statement<'a> {
    /// The item, from the first string to the last.
    header: &'a str,
    /// The name of the collation.
    collation: &'a str,
    left: &'a str,
    right: &'a str,
}

/// The code points or bytes that the first field of a line lists.
fn range(field: &str) -> Option<(usize, usize)> {
    let (first, last) = field.split_once("..").unwrap_or((field, field));
    let number = |digits| usize::from_str_radix(digits, 16).ok();
    Some((number(first)?, number(last)?))
}

/// The weights that the lines of a file give: `C W`, `C..D @ W` and `default =`. A code without a
/// line has itself as its weight.
fn weights(lines: &str, greatest: u16) -> Option<Vec<u16>> {
    let mut weights: Vec<u16> = (0..=greatest).collect();
    for line in lines.lines() {
        let fields: Vec<&str> = line.split_whitespace().collect();
        let (codes, weight) = match fields[..] {
            [] | ["default", "="] => continue,
            [code, weight] | [code, "@", weight] => (code, weight),
            _ => return None,
        };
        let (first, last) = range(codes)?;
        let weight = u16::from_str_radix(weight, 16).ok()?;
        let cells = weights.get_mut(first..=last)?;
        for (cell, weight) in cells.iter_mut().zip(weight..=u16::MAX) {
            *cell = weight;
        }
    }
    Some(weights)
}

/// The tables of the collations that a catalog declares, by their names.
fn tables(catalog: &str) -> io::Result<HashMap<&str, Table>> {
    let mut tables = HashMap::new();
    for line in catalog.lines() {
        let fields: Vec<&str> = line.split_whitespace().collect();
        let table = match fields[..] {
            ["collation", _, _, "general", file] => {
                weights(&fs::read_to_string(file)?, 0xFFFF).map(Table::Codes)
            }
            ["collation", _, _, "table8", file] => {
                weights(&fs::read_to_string(file)?, 0xFF).map(Table::Bytes)
            }
            _ => None,
        };
        let table = table.ok_or(io::ErrorKind::InvalidData)?;
        tables.insert(fields[1], table);
    }
    Ok(tables)
}

/// Cuts a statement without its `;` into its parts.
fn cut(statement: &str) -> Option<Statement<'_>> {
    let header = statement.trim_start().strip_prefix("SELECT ")?;
    let mut parts = header.split('\'');
    let (_, left, between, right) = (parts.next()?, parts.next()?, parts.next()?, parts.next()?);
    let collation = between.strip_prefix(" COLLATE ")?.split(' ').next()?;
    Some(Statement {
        header,
        collation,
        left,
        right,
    })
}

/// Whether two lists of weights are equal, the shorter one prolonged by spaces.
fn are_equal(
    mut left: impl Iterator<Item = u16>,
    mut right: impl Iterator<Item = u16>,
    space: u16,
) -> bool {
    loop {
        match (left.next(), right.next()) {
            (None, None) => return true,
            (one, other) if one.unwrap_or(space) != other.unwrap_or(space) => return false,
            _ => {}
        }
    }
}

impl Table {
    /// Whether two texts are equal by these weights.
    fn equates(&self, left: &str, right: &str) -> bool {
        match self {
            Table::Codes(weights) => {
                let weight = |character| {
                    let code = u32::from(character) as usize;
                    weights[if code < weights.len() { code } else { 0xFFFD }]
                };
                are_equal(
                    left.chars().map(weight),
                    right.chars().map(weight),
                    weight(' '),
                )
            }
            Table::Bytes(weights) => {
                let weight = |byte| weights[usize::from(byte)];
                are_equal(
                    left.bytes().map(weight),
                    right.bytes().map(weight),
                    weight(b' '),
                )
            }
        }
    }
}

/// Answers the statements in turn, each with one write.
fn answer(catalog: &str, script: &str, out: &mut impl Write) -> io::Result<()> {
    let tables = tables(catalog)?;
    let mut lines = Vec::new();
    for statement in script.split(';') {
        if statement.trim().is_empty() {
            continue;
        }
        let statement = cut(statement).ok_or(io::ErrorKind::InvalidData)?;
        let table = tables
            .get(statement.collation)
            .ok_or(io::ErrorKind::InvalidData)?;
        let equal = table.equates(statement.left, statement.right);
        lines.clear();
        lines.extend_from_slice(statement.header.as_bytes());
        lines.extend_from_slice(if equal { b"\n1\n" } else { b"\n0\n" });
        out.write_all(&lines)?;
    }
    Ok(())
}

/// Answers the script that the second word names, under the catalog that the first one does.
fn main() -> ExitCode {
    let words: Vec<String> = env::args().skip(1).collect();
    let [catalog, script] = &words[..] else {
        eprintln!("usage: tables CATALOG SCRIPT");
        return ExitCode::from(2);
    };
    let answered = fs::read_to_string(catalog).and_then(|catalog| {
        let script = fs::read_to_string(script)?;
        answer(&catalog, &script, &mut io::stdout())
    });
    match answered {
        Ok(()) => ExitCode::SUCCESS,
        Err(error) => {
            eprintln!("tables: {error}");
            ExitCode::FAILURE
        }
    }
}
