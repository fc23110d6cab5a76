//! Rows of the filters on numbers.
use super::answers::are_answered;
use liquid_decimals::Decimal;
use liquid_error::Error;
use liquid_filters::number::arithmetic::{
    at_least, at_most, divided_by, minus, modulo, plus, times,
};
use liquid_filters::number::single::{abs, ceil, floor, round};
use liquid_filters::number::units::{from_minor, to_minor, written_decimal};
use liquid_value::{Value, ValueCow};
use rows::{Line, is_text, rows_hold};
use std::alloc::Global;
use std::test::Fail;

/// A filter, its input, its arguments, and the source of what it returns.
const ROWS: &str = r#"["plus", "41", ["1"], "42"]
["plus", "9223372036854775807", ["1"], "liquid: Number past its limit\n"]
["minus", " 7 ", ["x"], "liquid: Whole number expected\n  with:\n    found=\"x\"\n"]
["minus", "0", ["-5"], "5"]
["times", "-38", ["9223372036854775807"], "liquid: Number past its limit\n"]
["times", "6", ["-7"], "-42"]
["divided_by", "-7", ["2"], "-4"]
["divided_by", "7", ["-2"], "-4"]
["divided_by", "-9223372036854775808", ["-1"], "liquid: Number past its limit\n"]
["divided_by", "1", ["0"], "liquid: Divided by zero\n"]
["modulo", "-7", ["2"], "1"]
["modulo", "7", ["-2"], "-1"]
["modulo", "-9223372036854775808", ["-1"], "0"]
["at_least", "4", ["5"], "5"]
["at_most", "4", ["5"], "4"]
["at_most", "4", [], "liquid: Unexpected arguments\n"]
["abs", "-17", [], "17"]
["ceil", "8", [], "8"]
["floor", "8", [], "8"]
["round", "-15", ["-1"], "-20"]
["round", "14", ["-1"], "10"]
["round", "9223372036854775807", ["-19"], "liquid: Number past its limit\n"]
["round", "5", ["-20"], "0"]
["round", "5", ["2"], "5"]"#;

/// The same for decimals. What is answered, Python's module `decimal` calculates.
const DECIMAL_ROWS: &str = r#"["plus", "12.50", ["1"], "\"13.50\""]
["plus", "0.1", ["0.2"], "\"0.3\""]
["plus", "-0.5", ["0.50"], "\"0.00\""]
["plus", "9223372036854775807", ["0.1"], "liquid: Number past its limit\n"]
["minus", "1", ["0.01"], "\"0.99\""]
["minus", "-12.5", ["0.05"], "\"-12.55\""]
["times", "19.99", ["3"], "\"59.97\""]
["times", "1250", ["0.19"], "\"237.50\""]
["times", "-0.5", ["0.5"], "\"-0.25\""]
["times", "0.0000000001", ["0.0000000001"], "liquid: Number past its limit\n"]
["times", "9223372036854775807", ["1.0"], "liquid: Number past its limit\n"]
["divided_by", "10", ["3", "2"], "\"3.33\""]
["divided_by", "-1", ["8", "2"], "\"-0.13\""]
["divided_by", "12.50", ["4"], "\"3.13\""]
["divided_by", "1", ["-0.3"], "\"-3.3\""]
["divided_by", "10", ["4", "0"], "3"]
["divided_by", "1", ["3", "18"], "\"0.333333333333333333\""]
["divided_by", "0.000000000000000001", ["9223372036854775807", "18"], "\"0.000000000000000000\""]
["divided_by", "9223372036854775807", ["0.5", "0"], "liquid: Number past its limit\n"]
["modulo", "-7.5", ["2"], "\"0.5\""]
["modulo", "7.5", ["-2"], "\"-0.5\""]
["modulo", "1", ["0.3"], "\"0.1\""]
["abs", "-13.50", [], "\"13.50\""]
["abs", "-0.00", [], "\"0.00\""]
["at_least", "12.50", ["12.5"], "\"12.50\""]
["at_least", "1.5", ["2"], "2"]
["at_most", "12.5", ["12.50"], "\"12.5\""]
["at_most", "1.5", ["-2.25"], "\"-2.25\""]
["ceil", "12.01", [], "13"]
["ceil", "-12.99", [], "-12"]
["floor", "12.99", [], "12"]
["floor", "-12.01", [], "-13"]
["ceil", "0.5", [], "1"]
["floor", "-0.5", [], "-1"]
["round", "13.5", ["2"], "\"13.50\""]
["round", "2.5", [], "3"]
["round", "-2.5", [], "-3"]
["round", "0.125", ["2"], "\"0.13\""]
["round", "1249.9", ["-2"], "1200"]
["round", "1250.0", ["-2"], "1300"]
["round", "0.45", ["0"], "0"]
["round", "92233720368547758.07", ["3"], "liquid: Number past its limit\n"]
["decimal", "1234567.5", ["2", ",", "."], "\"1.234.567,50\""]
["decimal", "5", ["2"], "\"5.00\""]
["decimal", "-999.995", ["2", ".", ","], "\"-1,000.00\""]
["decimal", "-0.001", ["2"], "\"0.00\""]
["decimal", "1234.5", ["0", ".", ","], "\"1,235\""]
["decimal", "123456", ["1"], "\"123456.0\""]
["from_minor", "1250", ["2"], "\"12.50\""]
["from_minor", "-5", ["2"], "\"-0.05\""]
["from_minor", "7", ["0"], "7"]
["from_minor", "-1250", ["2"], "\"-12.50\""]
["to_minor", "12.50", ["2"], "1250"]
["to_minor", "12.505", ["2"], "liquid: Digits past their limit\n"]
["to_minor", "12.500", ["2"], "1250"]
["to_minor", "-3", ["2"], "-300"]
["to_minor", "9223372036854775807", ["1"], "liquid: Number past its limit\n"]
["plus", "12.5 ", ["1"], "liquid: Whole number expected\n  with:\n    found=\"12.5 \"\n"]
["plus", ".5", ["1"], "liquid: Whole number expected\n  with:\n    found=\".5\"\n"]
["plus", "5.", ["1"], "liquid: Whole number expected\n  with:\n    found=\"5.\"\n"]
["plus", "+1.5", ["1"], "liquid: Whole number expected\n  with:\n    found=\"+1.5\"\n"]
["plus", "1.5", ["1e3"], "liquid: Whole number expected\n  with:\n    found=\"1e3\"\n"]
["plus", "0.0000000000000000001", ["1"], "liquid: Whole number expected\n  with:\n    found=\"0.0000000000000000001\"\n"]
["plus", "9.223372036854775808", ["1"], "liquid: Whole number expected\n  with:\n    found=\"9.223372036854775808\"\n"]
["divided_by", "1.5", ["0.00"], "liquid: Divided by zero\n"]
["divided_by", "1", ["0", "2"], "liquid: Divided by zero\n"]
["divided_by", "1", ["3", "-1"], "liquid: Digits past their limit\n"]
["divided_by", "1", ["3", "19"], "liquid: Number past its limit\n"]
["modulo", "1.5", ["0"], "liquid: Divided by zero\n"]
["round", "0.5", ["19"], "liquid: Number past its limit\n"]
["round", "0.5", ["-20"], "0"]
["decimal", "1.5", [], "liquid: Unexpected arguments\n"]
["decimal", "1.5", ["-1"], "liquid: Digits past their limit\n"]
["decimal", "1.5", ["x"], "liquid: Whole number expected\n  with:\n    found=\"x\"\n"]
["from_minor", "1.5", ["2"], "liquid: Whole number expected\n  with:\n    found=\"1.5\"\n"]
["from_minor", "1", ["19"], "liquid: Number past its limit\n"]
["to_minor", "0.5", ["0"], "liquid: Digits past their limit\n"]"#;

/// A mantissa, a power of ten, and the text of the decimal that they make, which is empty if they make none.
const POWER_ROWS: &str = r#"[15, -1, "1.5"]
[1, 3, "1000"]
[-5, -18, "-0.000000000000000005"]
[1, -19, ""]
[1, 19, ""]
[0, 400, "0"]
[9, 18, "9000000000000000000"]
[10, 18, ""]"#;

/// Returns the result of a filter.
fn answered(
    alloc: Global,
    filter: &str,
    input: &Value,
    arguments: &[ValueCow<'_>],
) -> Result<Value, Error> {
    match filter {
        "plus" => plus(alloc, input, arguments),
        "minus" => minus(alloc, input, arguments),
        "times" => times(alloc, input, arguments),
        "divided_by" => divided_by(alloc, input, arguments),
        "modulo" => modulo(alloc, input, arguments),
        "at_least" => at_least(alloc, input, arguments),
        "at_most" => at_most(alloc, input, arguments),
        "abs" => abs(alloc, input),
        "ceil" => ceil(alloc, input),
        "floor" => floor(alloc, input),
        "round" => round(alloc, input, arguments),
        "decimal" => written_decimal(alloc, input, arguments),
        "from_minor" => from_minor(alloc, input, arguments),
        "to_minor" => to_minor(alloc, input, arguments),
        _ => Ok(Value::Nil),
    }
}

/// Returns `true` if a mantissa and a power make the decimal that their row says.
fn is_made(alloc: Global, row: &Line) -> bool {
    match (row.number(0), row.number(1), row.text(2)) {
        (Some(mantissa), Some(power), Some(wanted)) => match Decimal::from_power(mantissa, power) {
            Some(decimal) => is_text(decimal.to_string(alloc), wanted),
            None => wanted.is_empty(),
        },
        _ => false,
    }
}

#[test]
fn powers_make_decimals(rt: HostRuntime) -> Result<(), Fail> {
    rows_hold(rt.alloc(), POWER_ROWS, is_made)
}

#[test]
fn numbers_are_answered(rt: HostRuntime) -> Result<(), Fail> {
    are_answered(rt.alloc(), ROWS, answered)
}

#[test]
fn decimals_are_answered(rt: HostRuntime) -> Result<(), Fail> {
    are_answered(rt.alloc(), DECIMAL_ROWS, answered)
}
