//! Tables of patterns and date texts, and each public call once.
mod patterns;

use crate::date_texts::{has_no_form, is_mail, is_printed};
use crate::dates::patterns::{FILLED, NEGATIVE, PLAIN, REFUSED, ZEROS};
use liquid_dates::{Date, DateError, DateFormatError, DateTime};
use rows::{Line, holds, is_text, rows_hold};
use std::alloc::Global;
use std::test::Fail;

// Texts, and the nanoseconds from 1970 on and the offset of the date time that each is.
const DATE_TIMES: &str = r#"["2016-02-16 10:00:00 +0100", 1455613200000000000, 3600]
["2016-02-16 10:00:00.0 +0100", 1455613200000000000, 3600]
["16 February 2016 10:00:00 +0100", 1455613200000000000, 3600]
["16 Feb 2016 10:00:00 +0100", 1455613200000000000, 3600]
["02/16/2016 10:00:00 +0100", 1455613200000000000, 3600]
["Tue Feb 16 10:00:00 2016 +0100", 1455613200000000000, 3600]
["2016-02-16 09:00:00", 1455613200000000000, 0]
["2016-02-16 10:00:00", 1455616800000000000, 0]
["16 Feb 2016 09:00:00", 1455613200000000000, 0]
["Tue Feb 16 09:00:00 2016", 1455613200000000000, 0]
["1455613200", 1455613200000000000, 0]
["-1455616800", -1455616800000000000, 0]
["2016-02-16 02:15:00 -0645", 1455613200000000000, -24300]
["2016-02-16 09:00:00.5", 1455613200500000000, 0]
[" Now ", 1667440597666777888, 21600]
["TODAY", 1667440597666777888, 21600]"#;

const NO_DATE_TIME: &str = r#"[""]
["aaaaa"]
["2016-02-30 10:00:00"]
["2016-02-16 24:00:00"]
["2016-02-16 10:00:00 +2600"]
["2016-02-16 10:00:00.1234567890"]
["2016-02-16"]
["99999999999999999"]"#;

fn november() -> Result<DateTime, DateError> {
    DateTime::from_parts(Date::from_ymd(2022, 11, 3)?, 7, 56, 37, 666_777_888, 21600)
}

fn is_in_row(alloc: Global, row: &Line, date_time: DateTime) -> bool {
    match row.text(0).zip(row.text(1)) {
        Some((pattern, text)) => is_printed(date_time.format(alloc, pattern), text),
        None => false,
    }
}

/// Fails for the first row of a table whose pattern doesn't print the row's text of a moment.
fn prints(alloc: Global, moment: Result<DateTime, DateError>, rows: &str) -> Result<(), Fail> {
    match moment {
        Ok(date_time) => rows_hold(alloc, rows, |alloc, row| is_in_row(alloc, row, date_time)),
        Err(_) => holds(false, "a moment"),
    }
}

fn january() -> Result<DateTime, DateError> {
    DateTime::from_parts(Date::from_ymd(2022, 1, 3)?, 7, 56, 37, 666_777_888, 21600)
}

/// Returns a moment in June of a year before 0.
fn early_june() -> Result<DateTime, DateError> {
    DateTime::from_parts(Date::from_ymd(-20, 6, 13)?, 17, 56, 37, 666_777_888, -26700)
}

/// Returns a moment whose fraction and offset have zeros.
fn monday() -> Result<DateTime, DateError> {
    DateTime::from_parts(Date::from_ymd(2007, 11, 19)?, 8, 37, 48, 5_000_000, -1800)
}

#[test]
fn patterns_are_printed(rt: HostRuntime) -> Result<(), Fail> {
    let alloc = rt.alloc();
    prints(alloc, november(), PLAIN)?;
    prints(alloc, january(), FILLED)?;
    prints(alloc, early_june(), NEGATIVE)?;
    prints(alloc, monday(), ZEROS)
}

/// Returns the error of a pattern, if it has one.
fn refusal(alloc: Global, pattern: &str) -> Option<DateFormatError> {
    november().ok()?.format(alloc, pattern).err()
}

/// Returns `true` if a pattern is an error with this text.
fn refuses(alloc: Global, pattern: &str, text: &str) -> bool {
    match refusal(alloc, pattern) {
        Some(error) => is_text(error.to_string(alloc), text),
        None => false,
    }
}

fn is_refused(alloc: Global, row: &Line) -> bool {
    match row.text(0).zip(row.text(1)) {
        Some((pattern, text)) => refuses(alloc, pattern, text),
        None => false,
    }
}

#[test]
fn patterns_are_refused(rt: HostRuntime) -> Result<(), Fail> {
    rows_hold(rt.alloc(), REFUSED, is_refused)?;
    let great = refusal(rt.alloc(), "%18446744073709551615d");
    holds(great == Some(DateFormatError::Memory), "the greatest width")
}

/// Returns `true` if a date time has the instant and the offset of the row.
fn is_instant(read: DateTime, row: &Line) -> bool {
    match row.number(1) {
        Some(instant) => {
            read.instant() == i128::from(instant) && row.number(2) == Some(i64::from(read.offset()))
        }
        None => false,
    }
}

/// Returns the text of a row, and a moment in November.
fn text_and_moment(row: &Line) -> Option<(&str, DateTime)> {
    row.text(0).zip(november().ok())
}

fn is_read(_alloc: Global, row: &Line) -> bool {
    let Some((text, moment)) = text_and_moment(row) else {
        return false;
    };
    match DateTime::from_str(text, moment) {
        Some(read) => is_instant(read, row),
        None => false,
    }
}

fn is_no_date_time(_alloc: Global, row: &Line) -> bool {
    match text_and_moment(row) {
        Some((text, moment)) => DateTime::from_str(text, moment).is_none(),
        None => false,
    }
}

#[test]
fn date_times_are_read(rt: HostRuntime) -> Result<(), Fail> {
    rows_hold(rt.alloc(), DATE_TIMES, is_read)?;
    rows_hold(rt.alloc(), NO_DATE_TIME, is_no_date_time)
}

/// Returns `true` if a text is this date, with a moment in November.
fn is_date(text: &str, date: Result<Date, DateError>) -> bool {
    match november().ok().zip(date.ok()) {
        Some((moment, date)) => Date::from_str(text, moment) == Some(date),
        None => false,
    }
}

/// Returns the date of a moment in November.
fn today() -> Result<Date, DateError> {
    Ok(november()?.date())
}

#[test]
fn dates_are_read(_rt: HostRuntime) -> Result<(), Fail> {
    let march = Date::from_ymd(2022, 3, 1);
    holds(
        is_date("01 Mar 2022", march)
            && is_date("01 March 2022", march)
            && is_date("2022-03-01", march),
        "a day in March",
    )?;
    holds(
        is_date("today", today()) && is_date("-0020-06-13", Date::from_ymd(-20, 6, 13)),
        "today, and a year before 0",
    )
}

/// Returns `true` if a text is no date, with a moment in November.
fn is_no_date(text: &str) -> bool {
    match november() {
        Ok(moment) => Date::from_str(text, moment).is_none(),
        Err(_) => false,
    }
}

#[test]
fn other_texts_are_no_dates(_rt: HostRuntime) -> Result<(), Fail> {
    holds(
        is_no_date("")
            && is_no_date("Today")
            && is_no_date("1 Mar 2022")
            && is_no_date("2022-02-29")
            && is_no_date("2022-03-01 "),
        "texts that are no dates",
    )
}

/// Returns a moment of a year before 0, with an offset that has seconds.
fn early() -> Result<DateTime, DateError> {
    DateTime::from_ymd(-20, 6, 13)?.with_offset(-1830)
}

/// Returns `true` if a date time and its date are printed as these texts.
fn has_texts(alloc: Global, moment: DateTime, text: &str, date: &str) -> bool {
    is_text(moment.to_string(alloc), text) && is_text(moment.date().to_string(alloc), date)
}

/// Returns `true` if a moment in November and an early one are printed.
fn moments_are_printed(alloc: Global) -> bool {
    let text = "2022-11-03 07:56:37.666777888 +0600";
    match november().ok().zip(early().ok()) {
        Some((moment, early)) => {
            has_texts(alloc, moment, text, "2022-11-03")
                && is_text(early.to_string(alloc), "-0020-06-12 23:29:30 -0030")
        }
        None => false,
    }
}

#[test]
fn date_times_are_printed(rt: HostRuntime) -> Result<(), Fail> {
    holds(
        moments_are_printed(rt.alloc()),
        "a moment, its date, and an early one",
    )
}

/// Returns the date time of a text, with a moment in November.
fn read(text: &str) -> Option<DateTime> {
    DateTime::from_str(text, november().ok()?)
}

/// Returns `true` if the date time of a text has this form for mail.
fn has_form(alloc: Global, text: &str, mail: &str) -> bool {
    match read(text) {
        Some(moment) => is_mail(moment.to_rfc2822(alloc), mail),
        None => false,
    }
}

#[test]
fn mail_has_a_form_of_its_own(rt: HostRuntime) -> Result<(), Fail> {
    let mail = "Tue, 16 Feb 2016 10:00:00 +0100";
    holds(
        has_form(rt.alloc(), "2016-02-16 10:00:00 +0100", mail),
        "the form for mail",
    )
}

#[test]
fn a_year_before_0_has_no_form_for_mail(rt: HostRuntime) -> Result<(), Fail> {
    holds(has_no_form(rt.alloc(), early().ok()), "a year before 0")
}

/// Returns `true` if a moment in November has its parts.
fn has_parts(moment: DateTime) -> bool {
    moment.year() == 2022
        && moment.month() == 11
        && moment.day() == 3
        && moment.hour() == 7
        && moment.minute() == 56
        && moment.second() == 37
        && moment.nanosecond() == 666_777_888
        && moment.ordinal() == 307
        && moment.iso_week() == 44
}

/// Returns `true` if a moment in November has its parts, and a date its week of the year before.
fn parts_are_found() -> bool {
    match november().ok().zip(Date::from_ymd(2021, 1, 3).ok()) {
        Some((moment, date)) => has_parts(moment) && date.iso_week() == 53,
        None => false,
    }
}

#[test]
fn moments_have_parts(_rt: HostRuntime) -> Result<(), Fail> {
    holds(
        parts_are_found(),
        "the date, the time, and the week of the year",
    )
}

/// Returns `true` if a moment in November that is put on another date has that date.
fn is_put_on(date: Result<Date, DateError>) -> bool {
    match november().ok().zip(date.ok()) {
        Some((moment, date)) => moment.with_date(date).date() == date,
        None => false,
    }
}

#[test]
fn a_moment_is_put_on_another_date(_rt: HostRuntime) -> Result<(), Fail> {
    holds(is_put_on(Date::from_ymd(2021, 1, 3)), "another date")
}

/// Returns `true` if a date time was made and is this one.
fn is_moment(made: Result<DateTime, DateError>, moment: DateTime) -> bool {
    match made {
        Ok(made) => made == moment,
        Err(_) => false,
    }
}

/// Returns `true` if a moment in November is the same with another offset.
fn is_same() -> bool {
    match november() {
        Ok(moment) => is_moment(moment.with_offset(0), moment),
        Err(_) => false,
    }
}

#[test]
fn a_moment_is_the_same_with_another_offset(_rt: HostRuntime) -> Result<(), Fail> {
    holds(is_same(), "another offset")
}

#[test]
fn now_is_the_default_without_a_clock(_rt: HostRuntime) -> Result<(), Fail> {
    holds(
        is_moment(DateTime::now(0), DateTime::default()),
        "now, without a clock",
    )
}

/// Returns `true` if a moment has no such offset, by this error.
fn refuses_offset(moment: Result<DateTime, DateError>, seconds: i32, error: DateError) -> bool {
    match moment {
        Ok(moment) => moment.with_offset(seconds).err() == Some(error),
        Err(_) => false,
    }
}

/// Returns `true` if a date was made and is before another one that was made.
fn is_before(date: Result<Date, DateError>, other: Result<Date, DateError>) -> bool {
    match date.ok().zip(other.ok()) {
        Some((date, other)) => date < other,
        None => false,
    }
}

#[test]
fn parts_out_of_range_are_refused(_rt: HostRuntime) -> Result<(), Fail> {
    let last = DateTime::from_ymd(9999, 12, 31);
    holds(
        refuses_offset(november(), 93_600, DateError::PartOutOfRange)
            && refuses_offset(last, 86_400, DateError::OutsideYears),
        "an offset of 26 hours, and one after the last year",
    )?;
    holds(
        Date::from_ymd(2022, 2, 29).err() == Some(DateError::PartOutOfRange)
            && is_before(Date::from_ymd(-1, 12, 31), Date::from_ymd(0, 1, 1)),
        "29 February 2022, and the order of dates",
    )
}
