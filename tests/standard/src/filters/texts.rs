//! Rows of the filters on texts.
use super::answers::are_answered;
use liquid_error::Error;
use liquid_filters::string::{
    append, base64_decode, base64_encode, base64_url_safe_decode, base64_url_safe_encode,
    capitalize, downcase, escape, escape_once, lstrip, newline_to_br, prepend, remove,
    remove_first, remove_last, replace, replace_first, replace_last, rstrip, slice, split, strip,
    strip_html, strip_newlines, truncate, truncatewords, upcase, url_decode, url_encode,
};
use liquid_value::{Value, ValueCow};
use std::alloc::Global;
use std::test::Fail;

/// A filter, its input, its arguments, and the source of what it returns.
const ROWS: &str = r#"["append", "  abc  ", ["o"], "\"  abc  o\""]
["append", "a", [], "liquid: Unexpected arguments\n"]
["prepend", "b", ["a"], "\"ab\""]
["upcase", "straße", [], "\"STRASSE\""]
["downcase", "ΑΣ ΣΑΣ", [], "\"ασ σασ\""]
["capitalize", "ΑΣ ΣΑΣ", [], "\"Ασ σασ\""]
["strip", " é ", [], "\"é\""]
["lstrip", "\n\ta b ", [], "\"a b \""]
["rstrip", "\r\r\n", [], "\"\""]
["strip_newlines", "\ra\r\n\nb", [], "\"\rab\""]
["newline_to_br", "a\r\nb", [], "\"a<br />\nb\""]
["escape", "&a;'", [], "\"&amp;a;&#39;\""]
["escape_once", "&é;&a;&#39&#39;<", [], "\"&amp;é;&a;&amp;#39&#39;&lt;\""]
["escape", null, [], "nil"]
["escape_once", null, [], "\"\""]
["strip_html", "<script>if (a<b) {}</script>!", [], "\"!\""]
["strip_html", "a<br/>b<br>c", [], "\"abc\""]
["replace", "abab", ["", "-"], "\"-a-b-a-b-\""]
["replace", "aaa", ["aa", "x"], "\"xa\""]
["replace_first", "nihon 日本 go", ["go"], "\"nihon 日本 \""]
["replace_last", "aaa", ["aa", "x"], "\"ax\""]
["remove", "mid…dle", ["dl"], "\"mid…e\""]
["remove_first", "🎉 party", [" pa"], "\"🎉rty\""]
["remove_last", "WORD", ["OR"], "\"WD\""]
["split", " a  b ", [" "], "[a, b, ]"]
["split", ",a,,b,,", [","], "[, a, , b, ]"]
["split", "aé", [""], "[a, é, ]"]
["truncate", "xxxxxxxxxx", [" 5 "], "\"xx...\""]
["truncate", "ééé", ["-1", "…"], "\"…\""]
["truncate", "a", ["x"], "liquid: Whole number expected\n  with:\n    found=\"x\"\n"]
["truncatewords", " a  b c", ["2"], "\"a b...\""]
["truncatewords", " a  b", ["2"], "\" a  b\""]
["truncatewords", "a b ", ["2", "&"], "\"a b&\""]
["slice", "日b ababZ%", ["4", "50"], "\"babZ%\""]
["slice", "abc", ["-2"], "\"b\""]
["slice", "abc", ["-4"], "\"\""]
["url_encode", "\n,xa*+ ~", [], "\"%0A%2Cxa%2A%2B+~\""]
["url_encode", "\u0000\u0001\u0002\u0003\u0004\u0005\u0006\u0007\b\t\n\u000b\f\r\u000e\u000f\u0010\u0011\u0012\u0013\u0014\u0015\u0016\u0017\u0018\u0019\u001a\u001b\u001c\u001d\u001e\u001f", [], "\"%00%01%02%03%04%05%06%07%08%09%0A%0B%0C%0D%0E%0F%10%11%12%13%14%15%16%17%18%19%1A%1B%1C%1D%1E%1F\""]
["url_encode", " !\"\u0023$%&'()*+,-./0123456789:;<=>?", [], "\"+%21%22%23%24%25%26%27%28%29%2A%2B%2C-.%2F0123456789%3A%3B%3C%3D%3E%3F\""]
["url_encode", "@ABCDEFGHIJKLMNOPQRSTUVWXYZ[\\]^_`abcdefghijklmnopqrstuvwxyz{|}~\u007f", [], "\"%40ABCDEFGHIJKLMNOPQRSTUVWXYZ%5B%5C%5D%5E_%60abcdefghijklmnopqrstuvwxyz%7B%7C%7D~%7F\""]
["url_decode", "%c3%a9+%&", [], "\"é %&\""]
["url_decode", "%c3", [], "liquid: Decoded bytes are no text\n"]
["base64_encode", "\r\n", [], "\"DQo=\""]
["base64_decode", "YWI=", [], "\"ab\""]
["base64_decode", "YWJ=", [], "liquid: Invalid base64\n"]
["base64_url_safe_encode", "~~~???é", [], "\"fn5-Pz8_w6k=\""]
["base64_url_safe_decode", "fn5-Pz8_w6k=", [], "\"~~~???é\""]
["base64_url_safe_decode", "fn5+Pz8/w6k=", [], "liquid: Invalid base64\n"]
["base64_url_safe_decode", "_w==", [], "liquid: Decoded bytes are no text\n"]"#;

/// Returns the result of a filter without arguments.
fn answered_alone(alloc: Global, filter: &str, input: &Value) -> Result<Value, Error> {
    match filter {
        "upcase" => upcase(alloc, input),
        "downcase" => downcase(alloc, input),
        "capitalize" => capitalize(alloc, input),
        "strip" => strip(alloc, input),
        "lstrip" => lstrip(alloc, input),
        "rstrip" => rstrip(alloc, input),
        "strip_newlines" => strip_newlines(alloc, input),
        "newline_to_br" => newline_to_br(alloc, input),
        "escape" => escape(alloc, input),
        "escape_once" => escape_once(alloc, input),
        "strip_html" => strip_html(alloc, input),
        "url_encode" => url_encode(alloc, input),
        "url_decode" => url_decode(alloc, input),
        "base64_encode" => base64_encode(alloc, input),
        "base64_decode" => base64_decode(alloc, input),
        "base64_url_safe_encode" => base64_url_safe_encode(alloc, input),
        "base64_url_safe_decode" => base64_url_safe_decode(alloc, input),
        _ => Ok(Value::Nil),
    }
}

/// Returns the result of a filter.
fn answered(
    alloc: Global,
    filter: &str,
    input: &Value,
    arguments: &[ValueCow<'_>],
) -> Result<Value, Error> {
    match filter {
        "append" => append(alloc, input, arguments),
        "prepend" => prepend(alloc, input, arguments),
        "replace" => replace(alloc, input, arguments),
        "replace_first" => replace_first(alloc, input, arguments),
        "replace_last" => replace_last(alloc, input, arguments),
        "remove" => remove(alloc, input, arguments),
        "remove_first" => remove_first(alloc, input, arguments),
        "remove_last" => remove_last(alloc, input, arguments),
        "split" => split(alloc, input, arguments),
        "truncate" => truncate(alloc, input, arguments),
        "truncatewords" => truncatewords(alloc, input, arguments),
        "slice" => slice(alloc, input, arguments),
        other => answered_alone(alloc, other, input),
    }
}

#[test]
fn texts_are_answered(rt: HostRuntime) -> Result<(), Fail> {
    are_answered(rt.alloc(), ROWS, answered)
}
