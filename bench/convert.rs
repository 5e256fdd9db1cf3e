//! The yardstick of `bench/convert.sh`: answers a script of statements
//! `SELECT HEX(CONVERT('..' USING SET));` as the proved program does, in plain Rust. It takes the
//! script's form for granted: no `;`, quote or backslash in a text, nothing that a header escapes,
//! and no text that is too long.

use std::io::{self, Write};
use std::process::ExitCode;
use std::{env, fs};

/// Digits by their value.
const DIGITS: &[u8; 16] = b"0123456789ABCDEF";

/// A statement's parts.
struct Statement<'a> {
    /// The item, from `HEX` to the last `)`.
    header: &'a str,
    /// What stands between the quotes.
    text: &'a str,
    /// The name of the character set.
    set: &'a str,
}

/// Cuts a statement without its `;` into its parts.
fn cut(statement: &str) -> Option<Statement<'_>> {
    let header = statement.trim_start().strip_prefix("SELECT ")?;
    let (_, behind) = header.split_once('\'')?;
    let (text, behind) = behind.split_once('\'')?;
    let set = behind.strip_prefix(" USING ")?.strip_suffix("))")?;
    Some(Statement { header, text, set })
}

/// The byte of a character in latin1. Of the letters of Windows-1252 between 80 and 9F it knows the
/// euro sign alone.
fn latin1_byte(character: char) -> u8 {
    match u32::from(character) {
        code @ (0x00..=0x7F | 0xA0..=0xFF) => code as u8,
        0x20AC => 0x80,
        _ => b'?',
    }
}

/// The byte of a character in ascii.
fn ascii_byte(character: char) -> u8 {
    if character.is_ascii() {
        character as u8
    } else {
        b'?'
    }
}

/// Appends a character in UTF-8.
fn push_utf8(character: char, out: &mut Vec<u8>) {
    out.extend_from_slice(character.encode_utf8(&mut [0; 4]).as_bytes());
}

/// Appends a character of one unit in UTF-16, else `?`.
fn push_ucs2(character: char, out: &mut Vec<u8>) {
    let unit = u16::try_from(u32::from(character)).unwrap_or(u16::from(b'?'));
    out.extend_from_slice(&unit.to_be_bytes());
}

/// Appends a character in UTF-16, the greater byte of a unit first.
fn push_utf16(character: char, out: &mut Vec<u8>) {
    for unit in character.encode_utf16(&mut [0; 2]) {
        out.extend_from_slice(&unit.to_be_bytes());
    }
}

/// Appends the text in a character set, with `?` for a character that the set lacks. False where
/// there is no set of this name.
fn convert(text: &str, set: &str, out: &mut Vec<u8>) -> bool {
    let characters = text.chars();
    match set {
        "latin1" => out.extend(characters.map(latin1_byte)),
        "ascii" => out.extend(characters.map(ascii_byte)),
        "utf8mb3" => characters.for_each(|character| {
            let fits = character.len_utf8() < 4;
            push_utf8(if fits { character } else { '?' }, out)
        }),
        "utf8mb4" | "binary" => characters.for_each(|character| push_utf8(character, out)),
        "ucs2" => characters.for_each(|character| push_ucs2(character, out)),
        "utf16" => characters.for_each(|character| push_utf16(character, out)),
        "utf32" => characters
            .for_each(|character| out.extend_from_slice(&u32::from(character).to_be_bytes())),
        _ => return false,
    }
    true
}

/// Appends two digits for each byte.
fn push_hex(bytes: &[u8], out: &mut Vec<u8>) {
    for &byte in bytes {
        out.push(DIGITS[usize::from(byte >> 4)]);
        out.push(DIGITS[usize::from(byte & 15)]);
    }
}

/// Answers the statements in turn, each with one write. False at the first one of another form.
fn answer(script: &str, out: &mut impl Write) -> io::Result<bool> {
    let mut converted = Vec::new();
    let mut lines = Vec::new();
    for statement in script.split(';') {
        if statement.trim().is_empty() {
            continue;
        }
        let Some(Statement { header, text, set }) = cut(statement) else {
            return Ok(false);
        };
        converted.clear();
        if !convert(text, set, &mut converted) {
            return Ok(false);
        }
        lines.clear();
        lines.extend_from_slice(header.as_bytes());
        lines.push(b'\n');
        push_hex(&converted, &mut lines);
        lines.push(b'\n');
        out.write_all(&lines)?;
    }
    Ok(true)
}

/// Answers the script that the first word names.
fn main() -> ExitCode {
    let Some(name) = env::args().nth(1) else {
        eprintln!("usage: convert SCRIPT");
        return ExitCode::from(2);
    };
    let answered = fs::read_to_string(name).and_then(|script| answer(&script, &mut io::stdout()));
    match answered {
        Ok(true) => ExitCode::SUCCESS,
        Ok(false) => {
            eprintln!("convert: a statement of another form");
            ExitCode::FAILURE
        }
        Err(error) => {
            eprintln!("convert: {error}");
            ExitCode::FAILURE
        }
    }
}
