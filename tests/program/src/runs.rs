//! Runs of the program over files and streams in memory, and what they have to answer.
//!
//! A row has six places: the words of the command, the template at the path `t`, its globals at `g.json`, the status, and
//! what the output and the error stream have. Words are one text with blanks between them, or a list in a table where a
//! word is empty or has a blank. Bytes are a text, or a list of parts: texts, bytes by their numbers, and pairs of a text
//! and how often it is repeated. For the error stream, `USAGE` is short for the line of usage.
use liquid_files::InMemoryFolder;
use liquid_program::in_memory::{Ran, run_in_memory};
use rows::Line;
use serde_json::Value as Json;
use std::alloc::Global;

const USAGE: &str = "usage: liquid render [--sandboxed] [--lenient] TEMPLATE GLOBALS.json [DIR]\n";

/// Adds a word. Returns `false` if memory runs out.
fn add_word(alloc: Global, words: &mut Vec<String>, word: &str) -> bool {
    match String::from_str(alloc, word) {
        Ok(word) => words.push(word).is_ok(),
        Err(_) => false,
    }
}

/// Adds the words of a text. Returns `false` if memory runs out.
pub(crate) fn add_split(alloc: Global, words: &mut Vec<String>, text: &str) -> bool {
    for word in text.split(" ") {
        if !add_word(alloc, words, word) {
            return false;
        }
    }
    true
}

/// Adds a word of a list. Returns `false` if it is not a text, or if memory runs out.
fn add_listed(alloc: Global, words: &mut Vec<String>, word: &Json) -> bool {
    match word.as_str() {
        Some(word) => add_word(alloc, words, word),
        None => false,
    }
}

/// Adds the words of a list. Returns `false` if one of them could not be added.
fn add_list(alloc: Global, words: &mut Vec<String>, list: &Vec<Json>) -> bool {
    for word in list {
        if !add_listed(alloc, words, word) {
            return false;
        }
    }
    true
}

/// Adds the words at a place of a row. Returns `false` if there are none, or if memory runs out.
pub(crate) fn add_words(alloc: Global, words: &mut Vec<String>, found: Option<&Json>) -> bool {
    match found {
        Some(Json::String(text)) => add_split(alloc, words, text.as_str()),
        Some(Json::Array(list)) => add_list(alloc, words, list),
        _ => false,
    }
}

/// Adds the bytes of a text. Returns `false` if memory runs out.
fn add_text(bytes: &mut Vec<u8>, text: &str) -> bool {
    bytes.extend_from_slice(text.as_bytes()).is_ok()
}

/// Adds the bytes of a text so many times. Returns `false` if memory runs out.
fn add_times(bytes: &mut Vec<u8>, text: &str, times: u64) -> bool {
    for _ in 0..times {
        if !add_text(bytes, text) {
            return false;
        }
    }
    true
}

/// Adds the bytes of a pair of a text and how often it is repeated. Returns `false` if it is not such a pair, or if memory
/// runs out.
fn add_repeated(bytes: &mut Vec<u8>, pair: &Json) -> bool {
    match (
        pair.get(0).and_then(Json::as_str),
        pair.get(1).and_then(Json::as_u64),
    ) {
        (Some(text), Some(times)) => add_times(bytes, text, times),
        _ => false,
    }
}

/// Adds the byte of a number. Returns `false` if it is not a byte, or if memory runs out.
fn add_byte(bytes: &mut Vec<u8>, number: Option<i64>) -> bool {
    match number {
        Some(number) => match u8::try_from(number) {
            Ok(byte) => bytes.push(byte).is_ok(),
            Err(_) => false,
        },
        None => false,
    }
}

/// Adds the bytes of a part. Returns `false` if it is not a part, or if memory runs out.
fn add_part(bytes: &mut Vec<u8>, part: &Json) -> bool {
    match part {
        Json::String(text) => add_text(bytes, text.as_str()),
        Json::Array(_) => add_repeated(bytes, part),
        _ => add_byte(bytes, part.as_i64()),
    }
}

/// Adds the bytes of a list of parts. Returns `false` if one of them could not be added.
fn add_parts(bytes: &mut Vec<u8>, parts: &Vec<Json>) -> bool {
    for part in parts {
        if !add_part(bytes, part) {
            return false;
        }
    }
    true
}

/// Adds the bytes at a place of a row. Returns `false` if there are none, or if memory runs out.
fn add_bytes(bytes: &mut Vec<u8>, found: Option<&Json>) -> bool {
    match found {
        Some(Json::String(text)) => add_text(bytes, text.as_str()),
        Some(Json::Array(parts)) => add_parts(bytes, parts),
        _ => false,
    }
}

/// Returns the bytes at a place of a row, if there are some and memory suffices.
pub(crate) fn bytes_of(alloc: Global, found: Option<&Json>) -> Option<Vec<u8>> {
    let mut bytes = Vec::new(alloc);
    if add_bytes(&mut bytes, found) {
        Some(bytes)
    } else {
        None
    }
}

/// Returns `true` if the bytes at a place of a row are these.
pub(crate) fn has_bytes(alloc: Global, wanted: Option<&Json>, bytes: &[u8]) -> bool {
    let mut all = Vec::new(alloc);
    add_bytes(&mut all, wanted) && all.as_slice() == bytes
}

/// Returns `true` if these bytes are what the error stream of a row has.
pub(crate) fn has_error(alloc: Global, row: &Line, err: &[u8]) -> bool {
    if row.text(5) == Some("USAGE") {
        err == USAGE.as_bytes()
    } else {
        has_bytes(alloc, row.member(5), err)
    }
}

/// Returns `true` if a row has this status.
pub(crate) fn has_status(row: &Line, status: u8) -> bool {
    row.number(3) == Some(i64::from(status))
}

/// Returns `true` if a run has the status of a row, and wrote what the row says.
fn has_answer(alloc: Global, row: &Line, ran: &Ran) -> bool {
    has_status(row, ran.status)
        && has_bytes(alloc, row.member(4), ran.out.as_slice())
        && has_error(alloc, row, ran.err.as_slice())
}

/// Adds a file of the bytes at a place of a row. Returns `false` if there are none, or if memory runs out.
pub(crate) fn add_file(
    alloc: Global,
    files: &mut InMemoryFolder,
    path: &str,
    found: Option<&Json>,
) -> bool {
    let mut bytes = Vec::new(alloc);
    add_bytes(&mut bytes, found) && files.add(alloc, path, bytes.as_slice()).is_ok()
}

/// Adds the template of a row at the path `t`, its globals at `g.json`, and another file at `u`. Returns `false` if the row
/// has no such places, or if memory runs out.
pub(crate) fn add_pages(alloc: Global, files: &mut InMemoryFolder, row: &Line) -> bool {
    files.add(alloc, "t", b"this file is replaced").is_ok()
        && add_file(alloc, files, "t", row.member(1))
        && add_file(alloc, files, "g.json", row.member(2))
        && files.add(alloc, "u", b"another file").is_ok()
}

/// Adds the list of the names in the folder `d`, with blanks between them. Returns `false` if memory runs out.
pub(crate) fn add_names(alloc: Global, files: &mut InMemoryFolder, names: &str) -> bool {
    let mut list = Vec::new(alloc);
    if !add_split(alloc, &mut list, names) {
        return false;
    }
    files.add_list(alloc, "d", list).is_ok()
}

/// Returns `true` if these words have the answer of a row.
fn are_answered(alloc: Global, row: &Line, files: &mut InMemoryFolder, words: &[String]) -> bool {
    has_answer(alloc, row, &run_in_memory(alloc, words, files))
}

/// Returns `true` if the words of a row have its answer over these files.
pub(crate) fn holds_over(alloc: Global, row: &Line, files: &mut InMemoryFolder) -> bool {
    let mut words = Vec::new(alloc);
    add_words(alloc, &mut words, row.member(0)) && are_answered(alloc, row, files, words.as_slice())
}

/// Returns `true` if the words of a row have its answer over its template and its globals.
pub(crate) fn row_holds(alloc: Global, row: &Line) -> bool {
    let mut files = InMemoryFolder::new(alloc);
    add_pages(alloc, &mut files, row) && holds_over(alloc, row, &mut files)
}
