//! The words that ask for the version or the help, and no others.
use liquid_program::help::text_for;
use rows::{Line, rows_hold};
use std::alloc::{AllocError, Global};
use std::test::Fail;

/// Words, and what the text that they ask for begins and ends with, if they ask for one.
const ROWS: &str = r#"["--version", "liquid ", "\n"]
["--help", "usage: liquid render ", "Of several pages it is the first status that is not 0.\n"]
[""]
["--help --version"]
["--version render"]
["-h"]
["--Help"]
["render"]
["render t g.json"]
["render --help g.json"]"#;

/// Returns the words of a text, which a space separates.
fn words_of(alloc: Global, text: &str) -> Result<Vec<String>, AllocError> {
    let mut words = Vec::new(alloc);
    for word in text.split_whitespace() {
        words.push(String::from_str(alloc, word)?)?;
    }
    Ok(words)
}

/// Returns `true` if the words of a row ask for its text, which has one line if it is the version.
fn row_holds(alloc: Global, row: &Line) -> bool {
    let Ok(words) = words_of(alloc, row.text(0).unwrap_or("none")) else {
        return false;
    };
    match (text_for(words.as_slice()), row.text(1).zip(row.text(2))) {
        (Some(text), Some((begin, end))) => {
            let is_one_line = text.lines().count() == 1;
            text.starts_with(begin)
                && text.ends_with(end)
                && is_one_line == (row.text(0) == Some("--version"))
        }
        (None, None) => true,
        _ => false,
    }
}

#[test]
fn a_text_is_given_to_the_words_that_ask_for_it(rt: HostRuntime) -> Result<(), Fail> {
    rows_hold(rt.alloc(), ROWS, row_holds)
}
