//! Rows of Jekyll's filters on dates.
use crate::answers::is_answered;
use rows::rows_hold;
use std::test::Fail;

/// The filter, its input, its arguments, and the source of what it returns.
const ROWS: &str = r#"["date_to_string", "2020-12-11", [], "\"11 Dec 2020\""]
["date_to_string", "2020-12-01", [], "\"01 Dec 2020\""]
["date_to_string", "02 Jan 2020", [], "\"02 Jan 2020\""]
["date_to_string", "2019-08-15T23:59:59.5Z", [], "\"15 Aug 2019\""]
["date_to_string", "1577836800", [], "\"01 Jan 2020\""]
["date_to_string", 86399, [], "\"01 Jan 1970\""]
["date_to_string", -99999, ["ordinal"], "\"30th Dec 1969\""]
["date_to_string", "2020-12-01", ["ordinal"], "\"1st Dec 2020\""]
["date_to_string", "2020-12-22", ["ordinal"], "\"22nd Dec 2020\""]
["date_to_string", "2020-12-23", ["ordinal"], "\"23rd Dec 2020\""]
["date_to_string", "2020-12-11", ["ordinal"], "\"11th Dec 2020\""]
["date_to_string", "2020-12-12", ["ordinal", "UK"], "\"12th Dec 2020\""]
["date_to_string", "2020-12-13", ["ordinal", "US"], "\"Dec 13th, 2020\""]
["date_to_string", "2020-12-21", ["ordinal", "us"], "\"21st Dec 2020\""]
["date_to_string", "2020-12-31", ["ordinal", "US"], "\"Dec 31st, 2020\""]
["date_to_string", "2020-12-30", ["ordinal", null], "\"30th Dec 2020\""]
["date_to_string", "2020-01-02", [null, "US"], "\"02 Jan 2020\""]
["date_to_string", "2020-01-02", ["x"], "\"02 Jan 2020\""]
["date_to_string", null, ["ordinal"], "nil"]
["date_to_string", "", [], "\"\""]
["date_to_long_string", "2020-12-11", [], "\"11 December 2020\""]
["date_to_long_string", "31 December 1999", [], "\"31 December 1999\""]
["date_to_long_string", "2020-03-03", ["ordinal"], "\"3rd March 2020\""]
["date_to_long_string", "2020-12-22", ["ordinal", "US"], "\"December 22nd, 2020\""]
["date_to_long_string", null, [], "nil"]
["date_to_xmlschema", "2013-05-06T02:12:52Z", [], "\"2013-05-06T02:12:52+00:00\""]
["date_to_xmlschema", "2020-12-30", [], "\"2020-12-30T00:00:00+00:00\""]
["date_to_xmlschema", "02 January 2020 03:04:05 +0000", [], "\"2020-01-02T03:04:05+00:00\""]
["date_to_xmlschema", "2021-06-07 08:09:10.250 +0000", [], "\"2021-06-07T08:09:10+00:00\""]
["date_to_xmlschema", "0", [], "\"1970-01-01T00:00:00+00:00\""]
["date_to_xmlschema", 951782400, [], "\"2000-02-29T00:00:00+00:00\""]
["date_to_xmlschema", "", [], "\"\""]
["date_to_xmlschema", null, [], "nil"]
["date_to_rfc822", "2020-12-12", [], "\"Sat, 12 Dec 2020 00:00:00 +0000\""]
["date_to_rfc822", "2013-05-06T02:12:52Z", [], "\"Mon, 06 May 2013 02:12:52 +0000\""]
["date_to_rfc822", "1969-07-20 20:17:40 +0000", [], "\"Sun, 20 Jul 1969 20:17:40 +0000\""]
["date_to_rfc822", null, [], "nil"]"#;

/// The same for inputs that are refused, with the text of the error.
const REFUSED: &str =
    r#"["date_to_string", "no date", [], "liquid: Moment expected\n  with:\n    found=\"no date\"\n"]
["date_to_string", false, ["ordinal", "US"], "liquid: Moment expected\n  with:\n    found=false\n"]
["date_to_long_string", [1], [], "liquid: Moment expected\n  with:\n    found=[1, ]\n"]
["date_to_xmlschema", "2020-13-01", [], "liquid: Moment expected\n  with:\n    found=\"2020-13-01\"\n"]
["date_to_rfc822", {}, [], "liquid: Moment expected\n  with:\n    found={}\n"]
["date_to_rfc822", [], [], "liquid: Moment expected\n  with:\n    found=[]\n"]
["date_to_string", "now", [], "liquid: Moment expected\n  with:\n    found=\"now\"\n"]
["date_to_string", "2020-12-11", [1, 2, 3], "liquid: Unexpected arguments\n"]"#;

#[test]
fn dates_are_answered(rt: HostRuntime) -> Result<(), Fail> {
    rows_hold(rt.alloc(), ROWS, is_answered)
}

#[test]
fn dates_are_refused(rt: HostRuntime) -> Result<(), Fail> {
    rows_hold(rt.alloc(), REFUSED, is_answered)
}
