//! Texts of dates whose existence no contract states: errors, long outputs, and the form of mail over its years.
use crate::texts::push_times;
use liquid_dates::{Date, DateError, DateFormatError, DateTime};
use rows::{Line, holds, is_text, rows_hold};
use std::alloc::Global;
use std::test::Fail;

// A pattern, and what `strftime` of C prints by it of 13 November 2022, 14:05:09 +0530.
const PART: (&str, &str) = (
    "%A, %d %B %Y at %H:%M:%S %z, day %j of the year; ",
    "Sunday, 13 November 2022 at 14:05:09 +0530, day 317 of the year; ",
);

// Moments and their mail form, as Python's `email.utils` writes it.
const MAILED: &str = r#"["1900-01-01 00:00:00 +0000", "Mon, 01 Jan 1900 00:00:00 +0000"]
["1900-12-31 23:59:59 -1200", "Mon, 31 Dec 1900 23:59:59 -1200"]
["2022-02-28 00:00:00 +0000", "Mon, 28 Feb 2022 00:00:00 +0000"]
["2022-11-13 14:05:09.999999999 +0530", "Sun, 13 Nov 2022 14:05:09 +0530"]
["9999-01-01 00:00:00 +1400", "Fri, 01 Jan 9999 00:00:00 +1400"]
["9999-12-31 23:59:59 -1130", "Fri, 31 Dec 9999 23:59:59 -1130"]"#;

fn november() -> Result<DateTime, DateError> {
    DateTime::from_parts(Date::from_ymd(2022, 11, 13)?, 14, 5, 9, 0, 19_800)
}

/// Returns `true` if an error has this text.
fn has_text(alloc: Global, error: DateError, text: &str) -> bool {
    is_text(error.to_string(alloc), text)
}

/// Returns `true` if each error has its text.
fn errors_have_texts(alloc: Global) -> bool {
    has_text(alloc, DateError::PartOutOfRange, "part out of range")
        && has_text(alloc, DateError::OutsideYears, "result outside the years")
        && has_text(alloc, DateError::NoRfc2822Form, "no RFC 2822 form")
        && has_text(alloc, DateError::Memory, "out of memory")
}

#[test]
fn errors_have_their_texts(rt: HostRuntime) -> Result<(), Fail> {
    holds(errors_have_texts(rt.alloc()), "the text of each error")
}

/// Returns `true` if an error of a pattern has this text.
fn pattern_has_text(alloc: Global, error: DateFormatError, text: &str) -> bool {
    is_text(error.to_string(alloc), text)
}

/// Returns `true` if each error of a pattern has its text.
fn errors_of_patterns_have_texts(alloc: Global) -> bool {
    let no_specifier = "no format specifier following '%'";
    let modified = DateFormatError::NoFormatSpecifierAfterModifier;
    let after_modifier = "no format specifier following '%' with a format modifier";
    let width = "failed to parse padding width: number too large to fit in target type";
    pattern_has_text(alloc, DateFormatError::NoFormatSpecifier, no_specifier)
        && pattern_has_text(alloc, modified, after_modifier)
        && pattern_has_text(alloc, DateFormatError::InvalidWidth, width)
        && pattern_has_text(alloc, DateFormatError::Memory, "out of memory")
}

#[test]
fn errors_of_patterns_have_their_texts(rt: HostRuntime) -> Result<(), Fail> {
    holds(
        errors_of_patterns_have_texts(rt.alloc()),
        "the text of each error",
    )
}

/// Returns a text that many times, and an end, or `None` if memory runs out.
fn repeated(alloc: Global, text: &str, count: usize, end: &str) -> Option<String> {
    let mut all = String::new(alloc);
    if push_times(&mut all, text, count) && push_times(&mut all, end, 1) {
        Some(all)
    } else {
        None
    }
}

/// Returns `true` if a text was printed and is this one.
pub(crate) fn is_printed(printed: Result<String, DateFormatError>, text: &str) -> bool {
    match printed {
        Ok(printed) => printed.as_str() == text,
        Err(_) => false,
    }
}

/// Returns `true` if a pattern prints this text in November.
fn prints(alloc: Global, pattern: &str, text: &str) -> bool {
    match november() {
        Ok(moment) => is_printed(moment.format(alloc, pattern), text),
        Err(_) => false,
    }
}

/// Returns `true` if a text was made, and a pattern prints it in November.
fn prints_made(alloc: Global, pattern: &str, made: Option<String>) -> bool {
    match made {
        Some(text) => prints(alloc, pattern, text.as_str()),
        None => false,
    }
}

/// Returns `true` if a pattern was made that prints the part's text 12 times: 780 bytes of many directives and much literal
/// text.
fn prints_parts(alloc: Global, made: Option<String>) -> bool {
    match made {
        Some(pattern) => prints_made(alloc, pattern.as_str(), repeated(alloc, PART.1, 12, "")),
        None => false,
    }
}

/// Returns `true` if literal text was made that is printed as it is.
fn prints_itself(alloc: Global, made: Option<String>) -> bool {
    match made {
        Some(literal) => prints(alloc, literal.as_str(), literal.as_str()),
        None => false,
    }
}

// Many directives, 600 bytes of literal text alone with characters past ASCII, and a year that is filled to 500 bytes.
#[test]
fn long_texts_are_printed(rt: HostRuntime) -> Result<(), Fail> {
    let alloc = rt.alloc();
    holds(
        prints_parts(alloc, repeated(alloc, PART.0, 12, ""))
            && prints_itself(alloc, repeated(alloc, "a day é ", 66, ""))
            && prints_made(alloc, "%500Y", repeated(alloc, "0", 496, "2022")),
        "many directives, literal text alone, and a year that is filled",
    )
}

/// Returns the date time of a text.
fn moment_of(text: &str) -> Option<DateTime> {
    DateTime::from_str(text, november().ok()?)
}

/// Returns `true` if a mail form was made and is this one.
pub(crate) fn is_mail(made: Result<String, DateError>, mail: &str) -> bool {
    match made {
        Ok(made) => made.as_str() == mail,
        Err(_) => false,
    }
}

/// Returns `true` if the date time of a text has this form for mail.
fn has_form(alloc: Global, text: &str, mail: &str) -> bool {
    match moment_of(text) {
        Some(moment) => is_mail(moment.to_rfc2822(alloc), mail),
        None => false,
    }
}

fn is_mailed(alloc: Global, row: &Line) -> bool {
    match row.text(0).zip(row.text(1)) {
        Some((text, mail)) => has_form(alloc, text, mail),
        None => false,
    }
}

/// Returns `true` if there is a moment, and it has no form for mail.
pub(crate) fn has_no_form(alloc: Global, moment: Option<DateTime>) -> bool {
    match moment {
        Some(moment) => moment.to_rfc2822(alloc).err() == Some(DateError::NoRfc2822Form),
        None => false,
    }
}

/// Returns a moment whose offset has seconds.
fn with_seconds() -> Option<DateTime> {
    november().ok()?.with_offset(19_801).ok()
}

#[test]
fn mail_dates_of_all_years(rt: HostRuntime) -> Result<(), Fail> {
    let alloc = rt.alloc();
    rows_hold(alloc, MAILED, is_mailed)?;
    holds(
        has_no_form(alloc, moment_of("1899-12-31 23:59:59 +0000"))
            && has_no_form(alloc, with_seconds()),
        "a year before 1900, and an offset with seconds",
    )
}
