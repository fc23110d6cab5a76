//! Rows of Jekyll's filters with a condition, and of the one with a chain.
use crate::answers::{answered_among, is_shown};
use liquid_error::Error;
use liquid_filters::json_text::json;
use liquid_json::to_object;
use liquid_value::Value;
use rows::{Line, rows_hold};
use std::alloc::Global;
use std::test::Fail;

/// The filter, its input, its arguments, the names that it sees, and what it returns, as JSON.
const ROWS: &str =
    r#"["where_exp", [{"i": 0, "k": false, "tags": ["b", "c"]}, {"i": 1, "k": false, "tags": ["a"]}, {"i": 2, "k": true, "tags": "a b"}, {"i": 3, "k": false, "a": null}, {"i": 4, "k": true, "a": {}, "title": "C++ & Ruby"}, {"i": 5, "k": false, "t": false, "a": {}, "title": "ÀÉÎ õü ß"}], ["i", "i.tags.first == \"a\""], {"n": 0, "s": "b", "p": "t", "site": {"title": "b"}}, "[{\"i\":1,\"k\":false,\"tags\":[\"a\"]}]"]
["find_exp", 5, ["i", "i"], {"n": 1, "s": "", "p": "k", "site": {"title": "a"}}, "5"]
["find_exp", null, ["i", "i[\"k\"] == s"], {"n": 0, "s": "a", "p": "t", "site": {"title": "a"}}, "null"]
["find_exp", [{"i": 0, "k": "a", "tags": "a"}, {"i": 1, "k": "b"}, {"i": 2, "k": "b1", "a": null}, {"i": 3, "k": "b", "t": true, "tags": []}, {"i": 4, "k": "b1"}, {"i": 5, "k": "Z", "title": "Crème brûlée"}], ["i", "i.i == 1 or i.i == 2 or i.i == 3"], {"n": 3, "s": "b", "p": "i", "site": {"title": "b"}}, "{\"i\":1,\"k\":\"b\"}"]
["find_exp", [{"i": 0, "k": "b"}, {"i": 1, "k": "aa", "t": null}], ["n", "n.k != nil"], {"n": 0, "s": "a", "p": "t", "site": {"title": "a"}}, "{\"i\":0,\"k\":\"b\"}"]
["find_exp", [], ["i", "i.k <= n"], {"n": 1, "s": "", "p": "i", "site": {"title": "b"}}, "null"]
["find_exp", [{"i": 0, "k": 6, "t": "x", "a": {}}, {"i": 1, "tags": ["a"]}, {"i": 2, "tags": ["a"]}, {"i": 3, "k": 9, "tags": []}], ["i", "i.k != nil"], {"n": 0, "s": "x", "p": "t", "site": {"title": "a"}}, "{\"a\":{},\"i\":0,\"k\":6,\"t\":\"x\"}"]
["where_exp", [{"i": 0, "k": ["x"], "t": "x", "tags": ["b", "c"]}], ["i", "i.k == nil"], {"n": 0, "s": "x", "p": "k", "site": {"title": "a"}}, "[]"]
["where_exp", [], ["i", "i.k == nil"], {"n": 2, "s": "x", "p": "t", "site": {"title": "a"}}, "[]"]
["find_exp", [{"i": 0, "k": "10", "tags": ["a", "b"], "title": "---"}, {"i": 1, "k": "100"}, {"i": 2, "k": "10", "tags": "a b", "title": "ÀÉÎ õü ß"}, {"i": 3, "k": "2", "t": true, "tags": ["a", "b"]}, {"i": 4, "k": "007", "t": "x"}], ["i", "i.none"], {"n": 2, "s": "x", "p": "k", "site": {"title": "b"}}, "null"]
["find_exp", {"a0": {"i": 0, "k": null, "title": "日本 語"}, "b1": {"i": 1, "k": 11, "a": {"b": 1}, "title": "---"}}, ["i", "i.k != false"], {"n": 3, "s": "b", "p": "k", "site": {"title": "b"}}, "{\"i\":0,\"k\":null,\"title\":\"日本 語\"}"]
["find_exp", [{"i": 0, "k": " 3 ", "t": "x", "title": "ÀÉÎ õü ß"}, {"i": 1, "k": "9", "a": {}, "tags": [], "title": "Hello, World!"}], ["post", "site.title == s"], {"n": 0, "s": "b", "p": "t", "site": {"title": "a"}}, "null"]
["find_exp", "abc", ["i", "true"], {"n": 2, "s": "", "p": "i", "site": {"title": "b"}}, "\"abc\""]
["find_exp", [{"i": 0, "k": "9"}, {"i": 1, "k": "-1", "t": "", "a": null}], ["i", "i.t == true"], {"n": 3, "s": "b", "p": "i", "site": {"title": "a"}}, "null"]
["where_exp", [{"i": 0, "k": "9", "tags": "a b"}, {"i": 1, "k": "100"}, {"i": 2, "k": "10"}, {"i": 3, "k": "9", "t": true}], ["i", "i.k == true"], {"n": 3, "s": "b", "p": "i", "site": {"title": "a"}}, "[]"]
["find_exp", [{"i": 0, "k": "b"}], ["n", "n.k == nil"], {"n": 0, "s": "b", "p": "t", "site": {"title": "a"}}, "null"]
["where_exp", {"c0": {"i": 0, "k": 10}, "b1": {"i": 1, "a": null, "title": "  lead and trail  "}, "a2": {"i": 2, "k": 7, "t": false, "a": {}}}, ["i", "n == 3"], {"n": 3, "s": "x", "p": "k", "site": {"title": "a"}}, "[{\"a\":{},\"i\":2,\"k\":7,\"t\":false},{\"a\":null,\"i\":1,\"title\":\"  lead and trail  \"},{\"i\":0,\"k\":10}]"]
["where_exp", [{"i": 0, "a": {"b": "p"}, "title": "Hello, World!"}, {"i": 1, "k": 2, "t": false, "a": {"b": "q"}}, {"i": 2, "k": 9, "t": "", "title": "The _config.yml file"}, {"i": 3, "k": -3, "a": {"b": 1}, "title": "ÀÉÎ õü ß"}, {"i": 4, "k": 10, "a": {"b": 2}}, {"i": 5, "k": null}], ["n", "n[\"k\"] == s"], {"n": 1, "s": "a", "p": "t", "site": {"title": "b"}}, "[]"]
["where_exp", [], ["i", "i.k > 2"], {"n": 0, "s": "x", "p": "k", "site": {"title": "a"}}, "[]"]
["find_exp", {"c0": {"i": 0, "k": 5, "tags": ["b", "c"], "title": "Crème brûlée"}}, ["i", "i.k != \"x\" or i.none"], {"n": 1, "s": "x", "p": "t", "site": {"title": "a"}}, "{\"i\":0,\"k\":5,\"tags\":[\"b\",\"c\"],\"title\":\"Crème brûlée\"}"]
["find_exp", {"b0": {"i": 0}, "c1": {"i": 1, "k": 0}}, ["i", "i.k >= n"], {"n": 2, "s": "", "p": "t", "site": {"title": "a"}}, "null"]
["where_exp", [{"i": 0, "k": "é", "tags": "a"}], ["i", "i.t == nil or i.t == \"\""], {"n": 0, "s": "x", "p": "i", "site": {"title": "a"}}, "[{\"i\":0,\"k\":\"é\",\"tags\":\"a\"}]"]
["find_exp", [{"i": 0, "k": 2, "tags": ["b", "c"]}, {"i": 1, "k": 10}, {"i": 2, "k": 3, "title": "Hello, World!"}, {"i": 3, "a": null}], ["n", "n == 3"], {"n": 1, "s": "a", "p": "i", "site": {"title": "b"}}, "null"]
["where_exp", null, ["i", "i.tags == empty"], {"n": 2, "s": "x", "p": "t", "site": {"title": "b"}}, "null"]
["find_exp", [{"i": 0, "k": 7}, {"i": 1, "t": true, "a": {"b": 0}}, {"i": 2, "k": 4, "tags": ["a"]}, {"i": 3, "k": 8, "t": null}, {"i": 4, "k": 6}, {"i": 5, "k": -1, "t": "", "tags": [], "title": "C++ & Ruby"}], ["i", "i.t == nil or i.t == \"\""], {"n": 0, "s": "", "p": "k", "site": {"title": "a"}}, "{\"i\":0,\"k\":7}"]
["where_exp", [{"i": 0, "k": false}, {"i": 1, "k": false, "tags": ["b", "c"]}, {"i": 2, "k": false, "tags": ["b", "c"], "title": "C++ & Ruby"}, {"i": 3, "k": true, "tags": ["a"]}], ["i", "i.k <= n"], {"n": 1, "s": "a", "p": "i", "site": {"title": "a"}}, "[]"]
["where_exp", [{"i": 0, "k": "Z", "t": "x"}, {"i": 1, "k": "aa"}, {"i": 2, "k": "é", "t": true, "tags": "a b", "title": "C++ & Ruby"}], ["i", "i.k contains 'b'"], {"n": 1, "s": "a", "p": "k", "site": {"title": "b"}}, "[]"]
["find_exp", null, ["i", "i.k == empty"], {"n": 0, "s": "a", "p": "k", "site": {"title": "a"}}, "null"]
["where_exp", [{"i": 0, "k": 9, "t": null, "a": {}}, {"i": 1, "k": 0, "t": false}], ["i", "i == 1"], {"n": 3, "s": "a", "p": "k", "site": {"title": "b"}}, "[]"]
["where_exp", null, ["i", "i.tags contains 'a'"], {"n": 1, "s": "", "p": "t", "site": {"title": "b"}}, "null"]
["where_exp", [], ["i", "i.t == true or i.k == 3"], {"n": 0, "s": "x", "p": "k", "site": {"title": "b"}}, "[]"]
["find_exp", [{"i": 0, "k": 4}, {"i": 1, "t": false, "tags": ["a"]}], ["i", "i.k > 1 and i.k < 9"], {"n": 2, "s": "b", "p": "k", "site": {"title": "a"}}, "{\"i\":0,\"k\":4}"]
["where_exp", [{"i": 0, "k": 10, "t": null, "tags": ["a", "b"]}, {"i": 1}, {"i": 2, "k": 4, "a": {"b": 0}, "title": "C++ & Ruby"}, {"i": 3, "k": 4, "t": true}, {"i": 4, "k": 5, "a": null}], ["i", "i == 1"], {"n": 2, "s": "a", "p": "i", "site": {"title": "a"}}, "[]"]
["where_exp", [{"i": 0, "k": 5}, {"i": 1, "k": 4}], ["i", "i.k contains 'b'"], {"n": 3, "s": "x", "p": "t", "site": {"title": "a"}}, "[]"]
["find_exp", [{"i": 0, "k": "é", "title": "  lead and trail  "}], ["i", "i.t == true"], {"n": 1, "s": "a", "p": "k", "site": {"title": "b"}}, "null"]
["where_exp", [{"i": 0}, {"i": 1, "k": ["x"]}, {"i": 2, "k": []}], ["i", "i.i < n"], {"n": 1, "s": "a", "p": "k", "site": {"title": "a"}}, "[{\"i\":0}]"]
["where_exp", [{"i": 0, "k": "é", "t": ""}, {"i": 1}, {"i": 2, "k": "C", "t": true}, {"i": 3, "k": "b", "a": {}, "tags": ["b", "c"]}], ["n", "n.n == 1 or n.n == 2 or n.n == 3"], {"n": 1, "s": "", "p": "i", "site": {"title": "a"}}, "[]"]
["where_exp", [], ["i", "i[\"k\"] == s"], {"n": 1, "s": "a", "p": "t", "site": {"title": "b"}}, "[]"]
["where_exp", [{"i": 0}], ["i", "i[\"k\"] == s"], {"n": 2, "s": "b", "p": "t", "site": {"title": "b"}}, "[]"]
["where_exp", [{"i": 0, "k": ["1", 2], "tags": ["a"]}, {"i": 1, "k": null}, {"i": 2, "k": ["a"], "a": {"b": "p"}}, {"i": 3, "k": ["1", 2], "t": "x"}], ["post", "post.t == nil or post.t == \"\""], {"n": 2, "s": "x", "p": "i", "site": {"title": "a"}}, "[{\"i\":0,\"k\":[\"1\",2],\"tags\":[\"a\"]},{\"i\":1,\"k\":null},{\"a\":{\"b\":\"p\"},\"i\":2,\"k\":[\"a\"]}]"]
["where_exp", [{"n": 1}, {"n": 2}, {"n": 3}], ["item", "item.n >= two"], {"item": 9, "two": 2}, "[{\"n\":2},{\"n\":3}]"]
["find_exp", [{"n": 1}, {"n": 2}, {"n": 3}], ["item", "item.n >= two"], {"item": 9, "two": 2}, "{\"n\":2}"]
["where_exp", {"b": 1, "a": 2}, ["v", "v == 1 or v == 2"], {}, "[2,1]"]
["where_exp", [1, [2], null], ["v", "v contains 2"], {}, "[[2]]"]
["where_exp", [{"site": 1}], ["site", "site.site == 1"], {"site": {"site": 2}}, "[{\"site\":1}]"]
["where_exp", [1, 2], ["v w", "true"], {}, "[1,2]"]
["find_exp", [1, 2], ["v", "v == 'x'"], {}, "null"]
["find_exp", null, ["v", "v == 'x'"], {}, "null"]
["find_exp", "abc", ["v", "false"], {}, "\"abc\""]
["where_exp", ["", "a"], ["v", "v == empty"], {}, "[\"\"]"]
["where_exp", [null, false], ["v", "v == false"], {}, "[false]"]
["group_by_exp", [{"i": 0, "tags": ["a", "b"], "title": "---"}], ["i", "i.i | plus: 1 | times: n"], {"n": 0, "s": "", "p": "k", "site": {"title": "a"}}, "[{\"items\":[{\"i\":0,\"tags\":[\"a\",\"b\"],\"title\":\"---\"}],\"name\":0,\"size\":1}]"]
["group_by_exp", [{"i": 0, "k": ["1", 2], "t": false, "a": {"b": "q"}}, {"i": 1, "k": ["1", 2], "tags": ["a", "b"], "title": "C++ & Ruby"}, {"i": 2, "k": ["a"], "t": ""}, {"i": 3, "k": ["a", "b"], "t": true, "tags": "a b"}, {"i": 4, "k": ["x"], "t": "", "a": {}, "tags": "a"}], ["i", "s"], {"n": 0, "s": "", "p": "t", "site": {"title": "a"}}, "[{\"items\":[{\"a\":{\"b\":\"q\"},\"i\":0,\"k\":[\"1\",2],\"t\":false},{\"i\":1,\"k\":[\"1\",2],\"tags\":[\"a\",\"b\"],\"title\":\"C++ & Ruby\"},{\"i\":2,\"k\":[\"a\"],\"t\":\"\"},{\"i\":3,\"k\":[\"a\",\"b\"],\"t\":true,\"tags\":\"a b\"},{\"a\":{},\"i\":4,\"k\":[\"x\"],\"t\":\"\",\"tags\":\"a\"}],\"name\":\"\",\"size\":5}]"]
["group_by_exp", [{"i": 0, "k": 6}, {"i": 1, "k": null, "t": "x", "a": {}}, {"i": 2, "k": 9, "a": {"b": 2}, "title": "日本 語"}, {"i": 3, "k": 4}, {"i": 4, "k": 3, "t": null, "tags": "a"}, {"i": 5, "k": 3, "a": null}], ["i", "i.k | to_integer | at_most: 3"], {"n": 1, "s": "", "p": "t", "site": {"title": "b"}}, "[{\"items\":[{\"i\":0,\"k\":6},{\"a\":{\"b\":2},\"i\":2,\"k\":9,\"title\":\"日本 語\"},{\"i\":3,\"k\":4},{\"i\":4,\"k\":3,\"t\":null,\"tags\":\"a\"},{\"a\":null,\"i\":5,\"k\":3}],\"name\":3,\"size\":5},{\"items\":[{\"a\":{},\"i\":1,\"k\":null,\"t\":\"x\"}],\"name\":0,\"size\":1}]"]
["group_by_exp", [{"i": 0, "k": "2019-05-06 07:08:09 +0000", "a": null, "title": "---"}, {"i": 1, "k": "2020-01-02 00:00:00 +0000"}, {"i": 2, "k": "2019-05-06 07:08:09 +0000"}, {"i": 3, "k": "2019-05-06 07:08:09 +0000"}, {"i": 4, "k": "2021-01-01 00:00:00 +0000", "t": null, "tags": "a b"}, {"i": 5, "k": "2021-01-01 00:00:00 +0000", "t": false, "title": "Hello, World!"}], ["post", "post.title | slugify"], {"n": 1, "s": "b", "p": "i", "site": {"title": "b"}}, "[{\"items\":[{\"a\":null,\"i\":0,\"k\":\"2019-05-06 07:08:09 +0000\",\"title\":\"---\"}],\"name\":\"\",\"size\":1},{\"items\":[{\"i\":1,\"k\":\"2020-01-02 00:00:00 +0000\"},{\"i\":2,\"k\":\"2019-05-06 07:08:09 +0000\"},{\"i\":3,\"k\":\"2019-05-06 07:08:09 +0000\"},{\"i\":4,\"k\":\"2021-01-01 00:00:00 +0000\",\"t\":null,\"tags\":\"a b\"}],\"name\":null,\"size\":4},{\"items\":[{\"i\":5,\"k\":\"2021-01-01 00:00:00 +0000\",\"t\":false,\"title\":\"Hello, World!\"}],\"name\":\"hello-world\",\"size\":1}]"]
["group_by_exp", [{"i": 0, "k": 2, "t": "x", "a": {"b": 0}, "tags": ["a"]}], ["i", "i.k | upcase"], {"n": 2, "s": "x", "p": "k", "site": {"title": "a"}}, "[{\"items\":[{\"a\":{\"b\":0},\"i\":0,\"k\":2,\"t\":\"x\",\"tags\":[\"a\"]}],\"name\":\"2\",\"size\":1}]"]
["group_by_exp", [{"i": 0, "k": true}], ["post", "post.a.b"], {"n": 2, "s": "x", "p": "i", "site": {"title": "a"}}, "[{\"items\":[{\"i\":0,\"k\":true}],\"name\":null,\"size\":1}]"]
["group_by_exp", [{"i": 0, "k": "b", "t": true, "title": "---"}, {"i": 1, "k": "B"}], ["i", "i.k | upcase"], {"n": 1, "s": "b", "p": "t", "site": {"title": "a"}}, "[{\"items\":[{\"i\":0,\"k\":\"b\",\"t\":true,\"title\":\"---\"},{\"i\":1,\"k\":\"B\"}],\"name\":\"B\",\"size\":2}]"]
["group_by_exp", [{"i": 0, "k": "a", "tags": ["b", "c"]}, {"i": 1, "k": "a", "t": null}, {"i": 2, "k": 2, "t": null, "a": null, "title": "日本 語"}], ["i", "i[p]"], {"n": 3, "s": "x", "p": "k", "site": {"title": "a"}}, "[{\"items\":[{\"i\":0,\"k\":\"a\",\"tags\":[\"b\",\"c\"]},{\"i\":1,\"k\":\"a\",\"t\":null}],\"name\":\"a\",\"size\":2},{\"items\":[{\"a\":null,\"i\":2,\"k\":2,\"t\":null,\"title\":\"日本 語\"}],\"name\":2,\"size\":1}]"]
["group_by_exp", [{"i": 0, "k": "B", "tags": "a", "title": "  lead and trail  "}, {"i": 1, "t": "x", "a": null}, {"i": 2, "k": "a", "t": "x", "a": {"b": "p"}}, {"i": 3, "a": {}}, {"i": 4, "k": "Z", "t": "", "tags": ["a", "b"]}, {"i": 5, "k": "C", "a": null, "tags": []}], ["i", "s"], {"n": 0, "s": "b", "p": "k", "site": {"title": "a"}}, "[{\"items\":[{\"i\":0,\"k\":\"B\",\"tags\":\"a\",\"title\":\"  lead and trail  \"},{\"a\":null,\"i\":1,\"t\":\"x\"},{\"a\":{\"b\":\"p\"},\"i\":2,\"k\":\"a\",\"t\":\"x\"},{\"a\":{},\"i\":3},{\"i\":4,\"k\":\"Z\",\"t\":\"\",\"tags\":[\"a\",\"b\"]},{\"a\":null,\"i\":5,\"k\":\"C\",\"tags\":[]}],\"name\":\"b\",\"size\":6}]"]
["group_by_exp", [{"i": 0, "k": "Z", "title": "---"}, {"i": 1, "a": null}], ["i", "i.k | date: '%Y'"], {"n": 1, "s": "b", "p": "k", "site": {"title": "a"}}, "[{\"items\":[{\"i\":0,\"k\":\"Z\",\"title\":\"---\"}],\"name\":\"Z\",\"size\":1},{\"items\":[{\"a\":null,\"i\":1}],\"name\":null,\"size\":1}]"]
["group_by_exp", [{"i": 0, "k": ["x"], "tags": "a", "title": "Crème brûlée"}, {"i": 1, "k": ["1", 2]}, {"i": 2, "k": ["a", "b"], "a": {}}, {"i": 3, "tags": ["a"]}, {"i": 4, "k": ["x"], "tags": ["a"]}, {"i": 5, "k": ["x"], "title": "C++ & Ruby"}], ["i", "i.title | slugify"], {"n": 3, "s": "a", "p": "t", "site": {"title": "a"}}, "[{\"items\":[{\"i\":0,\"k\":[\"x\"],\"tags\":\"a\",\"title\":\"Crème brûlée\"}],\"name\":\"crème-brûlée\",\"size\":1},{\"items\":[{\"i\":1,\"k\":[\"1\",2]},{\"a\":{},\"i\":2,\"k\":[\"a\",\"b\"]},{\"i\":3,\"tags\":[\"a\"]},{\"i\":4,\"k\":[\"x\"],\"tags\":[\"a\"]}],\"name\":null,\"size\":4},{\"items\":[{\"i\":5,\"k\":[\"x\"],\"title\":\"C++ & Ruby\"}],\"name\":\"c-ruby\",\"size\":1}]"]
["group_by_exp", [1, "1", 1], ["v", "v"], {}, "[{\"items\":[1,1],\"name\":1,\"size\":2},{\"items\":[\"1\"],\"name\":\"1\",\"size\":1}]"]
["group_by_exp", [1, 2, 3], ["v", "v | modulo: two"], {"v": 9, "two": 2}, "[{\"items\":[1,3],\"name\":1,\"size\":2},{\"items\":[2],\"name\":0,\"size\":1}]"]
["group_by_exp", [{"site": 1}], ["site", "site.site"], {"site": {"site": 2}}, "[{\"items\":[{\"site\":1}],\"name\":1,\"size\":1}]"]
["group_by_exp", [[1, 2], [3], [4, 4, 5]], ["v", "v | group_by_exp: 'w', 'w' | size"], {}, "[{\"items\":[[1,2],[4,4,5]],\"name\":2,\"size\":2},{\"items\":[[3]],\"name\":1,\"size\":1}]"]
["group_by_exp", [[1, 2], [0]], ["v", "v | where_exp: 'w', 'w == 1' | first"], {}, "[{\"items\":[[1,2]],\"name\":1,\"size\":1},{\"items\":[[0]],\"name\":null,\"size\":1}]"]
["group_by_exp", [null, false, null], ["v", "v"], {}, "[{\"items\":[null,null],\"name\":null,\"size\":2},{\"items\":[false],\"name\":false,\"size\":1}]"]
["group_by_exp", [], ["v", "v"], {}, "[]"]
["group_by_exp", null, ["v", "v"], {}, "null"]
["group_by_exp", "abc", ["v", "v"], {}, "\"abc\""]"#;

/// The same for arguments and inputs that are refused, with the text of the error.
const REFUSED: &str =
    r#"["find_exp", "a\\b", ["i", "== 1"], {"n": 3, "s": "a", "p": "t", "site": {"title": "a"}}, "liquid: Expression expected\n  with:\n    found=\"== 1\"\n"]
["find_exp", [{"i": 0, "k": true, "t": true}], ["i", "i.k | upcase"], {"n": 2, "s": "a", "p": "i", "site": {"title": "b"}}, "liquid: Expression expected\n  with:\n    found=\"i.k | upcase\"\n"]
["where_exp", [{"i": 0, "k": false, "a": {}}, {"i": 1, "k": true, "a": {"b": 0}, "title": "---"}, {"i": 2, "t": null, "tags": []}], ["i", "i.k | upcase"], {"n": 1, "s": "", "p": "k", "site": {"title": "a"}}, "liquid: Expression expected\n  with:\n    found=\"i.k | upcase\"\n"]
["where_exp", "31 December 1999", ["i", "i.k =="], {"n": 1, "s": "a", "p": "t", "site": {"title": "a"}}, "liquid: Expression expected\n  with:\n    found=\"i.k ==\"\n"]
["where_exp", null, ["i", "not i.k"], {"n": 0, "s": "", "p": "i", "site": {"title": "b"}}, "liquid: Expression expected\n  with:\n    found=\"not i.k\"\n"]
["find_exp", [{"i": 0, "k": 4, "a": {"b": 1}, "tags": "a"}, {"i": 1, "k": -2, "a": {}}, {"i": 2, "k": 3}, {"i": 3, "k": -3}, {"i": 4, "k": 3, "tags": ["a", "b"]}, {"i": 5, "k": 10}], ["i", "(i.k)"], {"n": 1, "s": "x", "p": "i", "site": {"title": "b"}}, "liquid: Expression expected\n  with:\n    found=\"(i.k)\"\n"]
["find_exp", [{"i": 0, "k": ""}, {"i": 1, "k": "C", "a": null}, {"i": 2, "k": "Z"}, {"i": 3, "k": "C", "tags": ["b", "c"]}, {"i": 4, "k": "aa"}, {"i": 5, "tags": ["b", "c"]}], ["i", "i.k = 1"], {"n": 1, "s": "x", "p": "i", "site": {"title": "a"}}, "liquid: Expression expected\n  with:\n    found=\"i.k = 1\"\n"]
["find_exp", [{"i": 0, "k": "9", "a": null, "tags": ["a"]}, {"i": 1, "k": "007", "t": true, "a": {"b": "p"}, "tags": []}, {"i": 2, "k": " 3 "}, {"i": 3, "k": "2", "a": {"b": 1}}, {"i": 4, "k": "9", "t": null, "tags": ["a"], "title": "Crème brûlée"}, {"i": 5, "k": " 3 ", "t": "x", "tags": []}], ["i", "i.k == 1 2"], {"n": 2, "s": "x", "p": "k", "site": {"title": "b"}}, "liquid: Expression expected\n  with:\n    found=\"i.k == 1 2\"\n"]
["where_exp", [1], [1, "i"], {}, "liquid: Expression expected\n  with:\n    found=1\n"]
["where_exp", [1], ["i", null], {}, "liquid: Expression expected\n  with:\n    found=nil\n"]
["find_exp", [1], ["i", "i %}{% if i"], {}, "liquid: Expression expected\n  with:\n    found=\"i %}{% if i\"\n"]
["find_exp", [1], ["i", "i %} "], {}, "liquid: Expression expected\n  with:\n    found=\"i %} \"\n"]
["find_exp", [1], ["i", "i | upcase"], {}, "liquid: Expression expected\n  with:\n    found=\"i | upcase\"\n"]
["find_exp", [1], ["i", ""], {}, "liquid: Expression expected\n  with:\n    found=\"\"\n"]
["find_exp", [1], ["i", "99999999999999999999"], {}, "liquid: Expression expected\n  with:\n    found=\"99999999999999999999\"\n"]
["find_exp", [1], ["i"], {}, "liquid: Unexpected arguments\n"]
["where_exp", [1], ["i", "i", "i"], {}, "liquid: Unexpected arguments\n"]
["group_by_exp", {"c0": {"i": 0, "k": -3}, "a1": {"i": 1, "k": 5}}, ["n", "n.k | downcase | slice: 0"], {"n": 3, "s": "", "p": "i", "site": {"title": "b"}}, "liquid: Array expected\n  with:\n    found={\"a1\": i1k5, \"c0\": i0k-3, }\n"]
["group_by_exp", {}, ["i", "i.k, 1"], {"n": 2, "s": "a", "p": "i", "site": {"title": "a"}}, "liquid: Expression expected\n  with:\n    found=\"i.k, 1\"\n"]
["group_by_exp", [], ["i", "| upcase"], {"n": 2, "s": "", "p": "t", "site": {"title": "a"}}, "liquid: Expression expected\n  with:\n    found=\"| upcase\"\n"]
["group_by_exp", [{"i": 0}, {"i": 1, "t": true}, {"i": 2, "a": {"b": "q"}}, {"i": 3, "k": null, "t": false}, {"i": 4, "k": "12", "tags": "a b"}, {"i": 5, "k": "-1"}], ["i", "i.k i.t"], {"n": 1, "s": "a", "p": "t", "site": {"title": "a"}}, "liquid: Expression expected\n  with:\n    found=\"i.k i.t\"\n"]
["group_by_exp", "2020-12-01", ["i", ""], {"n": 3, "s": "b", "p": "t", "site": {"title": "b"}}, "liquid: Expression expected\n  with:\n    found=\"\"\n"]
["group_by_exp", [{"i": 0, "k": "2020-01-02 00:00:00 +0000", "t": "x"}, {"i": 1, "k": "2020-01-02"}], ["i", "i.k == 1"], {"n": 2, "s": "", "p": "i", "site": {"title": "a"}}, "liquid: Expression expected\n  with:\n    found=\"i.k == 1\"\n"]
["group_by_exp", [{"i": 0, "k": false, "tags": ["b", "c"]}, {"i": 1, "k": true, "t": false, "a": {}}], ["i", "i.k |"], {"n": 0, "s": "a", "p": "t", "site": {"title": "b"}}, "liquid: Expression expected\n  with:\n    found=\"i.k |\"\n"]
["group_by_exp", null, ["i", "i | group_by_exp: a"], {"y": 185, "site": {"pages": [{"path": "about.md", "url": "/about/"}]}, "seo_tag": {"title": "T"}}, "liquid: Expression expected\n  with:\n    found=\"i | group_by_exp: a\"\n"]
["group_by_exp", {"é": "<style>q</style><i>z"}, ["i", "i.t"], {"n": 1, "s": "b", "p": "i", "site": {"title": "a"}}, "liquid: Array expected\n  with:\n    found={\"é\": <style>q</style><i>z, }\n"]
["group_by_exp", [1], [1, "i"], {}, "liquid: Expression expected\n  with:\n    found=1\n"]
["group_by_exp", [1], ["i", null], {}, "liquid: Expression expected\n  with:\n    found=nil\n"]
["group_by_exp", [1], ["i", "i %}{% echo i"], {}, "liquid: Expression expected\n  with:\n    found=\"i %}{% echo i\"\n"]
["group_by_exp", [1], ["i", "(1..2)"], {}, "liquid: Expression expected\n  with:\n    found=\"(1..2)\"\n"]
["group_by_exp", [1], ["i", "i | nofilter"], {}, "liquid: Expression expected\n  with:\n    found=\"i | nofilter\"\n"]
["group_by_exp", [1], ["i"], {}, "liquid: Unexpected arguments\n"]
["group_by_exp", [1], ["i", "i", "i"], {}, "liquid: Unexpected arguments\n"]"#;

/// Returns `true` if the filter of a row returns what the row says.
fn is_chosen(alloc: Global, row: &Line) -> bool {
    match (row.text(4), answer(alloc, row)) {
        (Some(wanted), Some(found)) => is_shown(alloc, &found, wanted),
        _ => false,
    }
}

/// Returns what the filter of a row returns, as JSON, if it is a row.
fn answer(alloc: Global, row: &Line) -> Option<Result<Value, Error>> {
    match (row.text(0), row.member(1), row.list(2), row.member(3)) {
        (Some(name), Some(input), Some(arguments), Some(names)) => match to_object(alloc, names) {
            Ok(names) => match answered_among(alloc, name, input, arguments.as_slice(), names) {
                Ok(value) => Some(json(alloc, &value)),
                Err(error) => Some(Err(error)),
            },
            Err(_) => None,
        },
        _ => None,
    }
}

#[test]
fn items_are_chosen(rt: HostRuntime) -> Result<(), Fail> {
    rows_hold(rt.alloc(), ROWS, is_chosen)
}

#[test]
fn other_arguments_are_refused(rt: HostRuntime) -> Result<(), Fail> {
    rows_hold(rt.alloc(), REFUSED, is_chosen)
}
