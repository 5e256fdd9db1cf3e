//! The yardstick of `bench/functions.sh`: answers a script of statements `SELECT FUNCTION(..) a;` as
//! the proved program does, in plain Rust, for REPEAT, REPLACE, CONCAT, LPAD, TRIM and SUBSTRING.
//! It takes the script's form for granted: texts in UTF-8 between quotes with no `;`, quote or
//! backslash in them, numbers, and no text that is too long.

use std::io::{self, Write};
use std::process::ExitCode;
use std::{env, fs};

/// A part of a call between its parentheses.
enum Argument<'a> {
    Text(&'a str),
    Number(i64),
}

use Argument::{Number, Text};

/// Cuts the text between two quotes off.
fn quoted(rest: &str) -> Option<(&str, &str)> {
    rest.strip_prefix('\'')?.split_once('\'')
}

/// The arguments up to the closing parenthesis. `FROM` counts as a comma.
fn arguments(mut rest: &str) -> Option<Vec<Argument<'_>>> {
    let mut found = Vec::new();
    loop {
        rest = rest.trim_start_matches([',', ' ']);
        rest = rest.strip_prefix("FROM ").unwrap_or(rest);
        if rest.starts_with(')') {
            return Some(found);
        }
        if let Some((text, behind)) = quoted(rest) {
            found.push(Text(text));
            rest = behind;
        } else {
            let end = rest.find([',', ' ', ')'])?;
            found.push(Number(rest[..end].parse().ok()?));
            rest = &rest[end..];
        }
    }
}

/// The byte where the character with this number begins, from 0, or the end.
fn start_of(text: &str, number: usize) -> usize {
    text.char_indices().nth(number).map_or(text.len(), |(at, _)| at)
}

/// At most so many characters from number `first` on, which counts from the end where it is
/// negative.
fn substring(text: &str, first: i64, count: i64) -> &str {
    let skipped = if first < 0 {
        text.chars().count() - first.unsigned_abs() as usize
    } else {
        first as usize - 1
    };
    let rest = &text[start_of(text, skipped)..];
    &rest[..start_of(rest, count as usize)]
}

/// The text behind copies of the pad, up to so many characters.
fn lpad(text: &str, count: i64, pad: &str, out: &mut String) {
    let missing = count as usize - text.chars().count();
    let width = pad.chars().count();
    for _ in 0..missing / width {
        out.push_str(pad);
    }
    out.push_str(&pad[..start_of(pad, missing % width)]);
    out.push_str(text);
}

/// The text without the copies of another one at both sides, the leading ones first.
fn trim<'a>(removed: &str, mut text: &'a str) -> &'a str {
    while let Some(rest) = text.strip_prefix(removed) {
        text = rest;
    }
    while let Some(rest) = text.strip_suffix(removed) {
        text = rest;
    }
    text
}

/// Appends what a call gives. None where it has another form.
fn call(name: &str, arguments: &[Argument<'_>], out: &mut String) -> Option<()> {
    match (name, arguments) {
        ("REPEAT", [Text(text), Number(count)]) => {
            out.reserve(text.len() * *count as usize);
            for _ in 0..*count {
                out.push_str(text);
            }
        }
        ("REPLACE", [Text(text), Text(from), Text(to)]) => out.push_str(&text.replace(from, to)),
        ("CONCAT", texts) => {
            for text in texts {
                let Text(text) = text else { return None };
                out.push_str(text);
            }
        }
        ("LPAD", [Text(text), Number(count), Text(pad)]) => lpad(text, *count, pad, out),
        ("TRIM", [Text(removed), Text(text)]) => out.push_str(trim(removed, text)),
        ("SUBSTRING", [Text(text), Number(first), Number(count)]) => {
            out.push_str(substring(text, *first, *count))
        }
        _ => return None,
    }
    Some(())
}

/// Answers the statements in turn, each with one write. False at the first one of another form.
fn answer(script: &str, out: &mut impl Write) -> io::Result<bool> {
    let mut lines = String::new();
    for statement in script.split(';') {
        let Some(item) = statement.trim_start().strip_prefix("SELECT ") else {
            return Ok(statement.trim().is_empty());
        };
        let Some((name, rest)) = item.split_once('(') else {
            return Ok(false);
        };
        let rest = rest.strip_prefix("BOTH ").unwrap_or(rest);
        lines.clear();
        lines.push_str("a\n");
        let given = arguments(rest).and_then(|found| call(name, &found, &mut lines));
        if given.is_none() {
            return Ok(false);
        }
        lines.push('\n');
        out.write_all(lines.as_bytes())?;
    }
    Ok(true)
}

/// Answers the script that the first word names.
fn main() -> ExitCode {
    let Some(name) = env::args().nth(1) else {
        eprintln!("usage: functions SCRIPT");
        return ExitCode::from(2);
    };
    let answered = fs::read_to_string(name).and_then(|script| answer(&script, &mut io::stdout()));
    match answered {
        Ok(true) => ExitCode::SUCCESS,
        Ok(false) => {
            eprintln!("functions: a statement of another form");
            ExitCode::FAILURE
        }
        Err(error) => {
            eprintln!("functions: {error}");
            ExitCode::FAILURE
        }
    }
}
