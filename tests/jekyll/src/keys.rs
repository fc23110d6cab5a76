//! Rows of Jekyll's filters on lists by a key of each item.
use crate::answers::{is_answered, is_written};
use rows::rows_hold;
use std::test::Fail;

/// The filter, its input, its arguments, and what it returns as JSON.
const ROWS: &str =
    r#"["where", [{"t": ["a"]}, {"t": "a"}, {"i": 3}], ["t", "a"], "[{\"t\":[\"a\"]},{\"t\":\"a\"}]"]
["where", [{"k": "007"}, {"k": 7}], ["k", "007"], "[]"]
["where", [{"k": "007"}, {"k": 7}], ["k", "7"], "[{\"k\":\"007\"},{\"k\":7}]"]
["where", [{"k": " 3 "}, {"k": "+3"}, {"k": "3"}], ["k", 3], "[{\"k\":\" 3 \"},{\"k\":\"3\"}]"]
["where", [{"k": true}, {"k": "true"}, {"k": false}], ["k", true], "[{\"k\":true},{\"k\":\"true\"}]"]
["where", [{"k": null}, {"i": 1}, {"k": ""}], ["k", null], "[{\"k\":null},{\"i\":1}]"]
["where", [{"k": ""}, {"k": []}], ["k", ""], "[{\"k\":\"\"}]"]
["where", {"b": {"k": 1}, "a": {"k": 2}}, ["k", 2], "[{\"k\":2}]"]
["where", {}, ["k", 2], "[]"]
["where", [{"a": {"b": "q"}}, {"a": {}}], ["a.b", "q"], "[{\"a\":{\"b\":\"q\"}}]"]
["where", [{"i": 1}, {"a": null}, {"a": true}], ["a.b", false], "[{\"i\":1},{\"a\":null},{\"a\":true}]"]
["where", [{"a": {}}, {"i": 2}], ["a.b", null], "[{\"a\":{}}]"]
["where", [null], ["k", null], "[null]"]
["where", "abc", ["k", "a"], "\"abc\""]
["where", 5, ["k", "a"], "5"]
["where", null, ["k", "a"], "null"]
["where", [{"k": 1}], [null, 1], "[{\"k\":1}]"]
["where", [{"k": 2}], [false, 1], "[{\"k\":2}]"]
["where", [{"k": 2}], ["k", [1]], "[{\"k\":2}]"]
["where", [{"k": 1}, {"k": false}, {}], ["k"], "[{\"k\":1}]"]
["find", [{"t": "b"}, {"t": ["a", "b"]}], ["t", "a"], "{\"t\":[\"a\",\"b\"]}"]
["find", [{"t": "b"}], ["t", "a"], "null"]
["find", [{"t": "b"}, {"i": 3}], ["t", null], "{\"i\":3}"]
["find", {"x": {"k": 1, "i": 1}, "b": {"k": 1, "i": 2}}, ["k", 1], "{\"i\":2,\"k\":1}"]
["find", [], ["t", "a"], "null"]
["find", "abc", ["t", "a"], "\"abc\""]
["find", true, ["t", 7], "true"]
["group_by", [{"k": "a", "i": 1}, {"k": "b"}, {"k": "a", "i": 2}], ["k"], "[{\"items\":[{\"i\":1,\"k\":\"a\"},{\"i\":2,\"k\":\"a\"}],\"name\":\"a\",\"size\":2},{\"items\":[{\"k\":\"b\"}],\"name\":\"b\",\"size\":1}]"]
["group_by", [{"k": "7"}, {"k": null}, {"k": 7}, {}], ["k"], "[{\"items\":[{\"k\":\"7\"},{\"k\":7}],\"name\":\"7\",\"size\":2},{\"items\":[{\"k\":null},{}],\"name\":\"\",\"size\":2}]"]
["group_by", [{"t": false}, {}], ["k.x"], "[{\"items\":[{\"t\":false},{}],\"name\":\"false\",\"size\":2}]"]
["group_by", [], ["k"], "[]"]
["group_by", "abc", ["k"], "\"abc\""]
["group_by", null, ["k"], "null"]
["sort", [{"i": 1, "k": "10"}, {"i": 2, "k": 9}, {"i": 3}], ["k"], "[{\"i\":3},{\"i\":2,\"k\":9},{\"i\":1,\"k\":\"10\"}]"]
["sort", [{"i": 1, "k": "10"}, {"i": 2, "k": 9}, {"i": 3}], ["k", "last"], "[{\"i\":2,\"k\":9},{\"i\":1,\"k\":\"10\"},{\"i\":3}]"]
["sort", [{"k": "b"}, {"k": "B"}, {"k": "aa"}], ["k", "first"], "[{\"k\":\"B\"},{\"k\":\"aa\"},{\"k\":\"b\"}]"]
["sort", [{"i": 1, "k": 2}, {"i": 2, "k": 1}, {"i": 3, "k": 1}], ["k"], "[{\"i\":2,\"k\":1},{\"i\":3,\"k\":1},{\"i\":1,\"k\":2}]"]
["sort", [{"k": true}, {"k": "9"}, {"k": "x"}], ["k"], "[{\"k\":\"9\"},{\"k\":true},{\"k\":\"x\"}]"]
["sort", {"b": 1, "a": 2}, [], "[[\"a\",2],[\"b\",1]]"]
["sort", {}, [], "[]"]
["sort", [3, 1, 2], [], "[1,2,3]"]
["sort", [3, 1, 2], [null, "middle"], "[1,2,3]"]
["sort", null, ["k"], "[]"]
["sort", [null], [], "[null]"]"#;

/// The same for inputs and arguments that are refused, with the text of the error.
const REFUSED: &str =
    r#"["where", [1, 2], ["t", ""], "liquid: Object expected\n  with:\n    property=t\n    found=1\n"]
["where", [{"k": -1}], ["k.x", null], "liquid: Object expected\n  with:\n    property=x\n    found=-1\n"]
["find", [null, "0"], ["t", "a"], "liquid: Object expected\n  with:\n    property=t\n    found=\"0\"\n"]
["find", [], ["k"], "liquid: Unexpected arguments\n"]
["group_by", {"a": {}}, ["k"], "liquid: Array expected\n  with:\n    found={\"a\": , }\n"]
["group_by", [[1]], ["a.b"], "liquid: Object expected\n  with:\n    property=a\n    found=[1, ]\n"]
["sort", false, ["k", "middle"], "liquid: Order of nil expected\n  with:\n    found=\"middle\"\n"]
["sort", null, ["k", "middle"], "liquid: Order of nil expected\n  with:\n    found=\"middle\"\n"]
["sort", "abc", ["k"], "liquid: Array expected\n  with:\n    found=\"abc\"\n"]
["sort", {"k": null}, ["t", "last"], "liquid: Array expected\n  with:\n    found={\"k\": , }\n"]
["sort", ["", "A"], ["k"], "liquid: Object expected\n  with:\n    property=k\n    found=\"\"\n"]"#;

#[test]
fn keys_are_answered(rt: HostRuntime) -> Result<(), Fail> {
    rows_hold(rt.alloc(), ROWS, is_written)
}

#[test]
fn keys_are_refused(rt: HostRuntime) -> Result<(), Fail> {
    rows_hold(rt.alloc(), REFUSED, is_answered)
}
