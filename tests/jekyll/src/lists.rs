//! Rows of Jekyll's filters on lists, and of those that write JSON.
use crate::answers::is_answered;
use rows::rows_hold;
use std::test::Fail;

/// The filter, its input, its arguments, and the source of what it returns.
const ROWS: &str = r#"["array_to_sentence_string", [], [], "\"\""]
["array_to_sentence_string", ["a"], [], "\"a\""]
["array_to_sentence_string", ["a", "b"], [], "\"a and b\""]
["array_to_sentence_string", ["a", "b", "c"], [], "\"a, b, and c\""]
["array_to_sentence_string", ["a", "b", "c", "d"], [], "\"a, b, c, and d\""]
["array_to_sentence_string", ["a", "b"], ["or"], "\"a or b\""]
["array_to_sentence_string", ["a", "b", "c"], ["or"], "\"a, b, or c\""]
["array_to_sentence_string", [1, 2, 3], ["und"], "\"1, 2, und 3\""]
["array_to_sentence_string", ["a", "b"], [""], "\"a  b\""]
["array_to_sentence_string", [""], [], "\"\""]
["array_to_sentence_string", ["", ""], [], "\" and \""]
["array_to_sentence_string", [null, "x"], [], "\" and x\""]
["array_to_sentence_string", "one", [], "\"one\""]
["array_to_sentence_string", null, [], "\"\""]
["array_to_sentence_string", ["é", "ü", "ß"], ["&"], "\"é, ü, & ß\""]
["array_to_sentence_string", ["a", "b"], [5], "\"a 5 b\""]
["jsonify", null, [], "\"null\""]
["jsonify", true, [], "\"true\""]
["jsonify", 12, [], "\"12\""]
["jsonify", "a", [], "\"\"a\"\""]
["jsonify", [1, "b"], [], "\"[1,\"b\"]\""]
["jsonify", {"k": 1}, [], "\"{\"k\":1}\""]
["jsonify", [], [], "\"[]\""]
["jsonify", "q\"", [], "\"\"q\\\"\"\""]
["inspect", "a", [], "\"&quot;a&quot;\""]
["inspect", [1, 2], [], "\"[1,2]\""]
["inspect", null, [], "\"null\""]
["inspect", "<", [], "\"&quot;&lt;&quot;\""]
["pop", ["a", "b", "c"], [], "[a, b, ]"]
["pop", ["a", "b", "c"], [2], "[a, ]"]
["pop", ["a"], [], "[]"]
["pop", [], [], "[]"]
["pop", ["a", "b"], [9], "[]"]
["pop", ["a", "b"], [0], "[a, b, ]"]
["pop", ["a", "b"], [-1], "[a, b, ]"]
["pop", "abc", [], "\"abc\""]
["pop", 5, [], "5"]
["pop", null, ["x"], "nil"]
["pop", ["a", "b"], ["1"], "[a, ]"]
["shift", ["a", "b", "c"], [], "[b, c, ]"]
["shift", ["a", "b", "c"], [2], "[c, ]"]
["shift", [], [], "[]"]
["shift", ["a"], [3], "[]"]
["shift", ["a", "b"], [-2], "[a, b, ]"]
["shift", "abc", [], "\"abc\""]
["push", ["a"], ["b"], "[a, b, ]"]
["push", [], [1], "[1, ]"]
["push", "x", ["y"], "\"x\""]
["push", null, [1], "nil"]
["unshift", ["a"], ["b"], "[b, a, ]"]
["unshift", [], [1], "[1, ]"]
["unshift", "x", ["y"], "\"x\""]
["unshift", {"k": 1}, ["y"], "{\"k\": 1, }"]"#;

/// The same for arguments that a filter refuses, with the text of the error.
const REFUSED: &str =
    r#"["pop", ["a"], ["x"], "liquid: Whole number expected\n  with:\n    found=\"x\"\n"]
["shift", ["a"], [null], "liquid: Whole number expected\n  with:\n    found=nil\n"]
["pop", ["a"], [1, 2], "liquid: Unexpected arguments\n"]
["push", ["a"], [], "liquid: Unexpected arguments\n"]"#;

#[test]
fn lists_are_answered(rt: HostRuntime) -> Result<(), Fail> {
    rows_hold(rt.alloc(), ROWS, is_answered)
}

#[test]
fn arguments_are_refused(rt: HostRuntime) -> Result<(), Fail> {
    rows_hold(rt.alloc(), REFUSED, is_answered)
}
