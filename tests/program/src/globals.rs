//! What the file of globals may contain.
use crate::runs::row_holds;
use rows::rows_hold;
use std::test::Fail;

/// Rows as `runs` describes them.
const GLOBALS: &str = r#"["render t g.json", "x", "", 3, "", "liquid: bad JSON in g.json\n"]
["render t g.json", "x", "{\"x\": 1", 3, "", "liquid: bad JSON in g.json\n"]
["render t g.json", "x", "{} x", 3, "", "liquid: bad JSON in g.json\n"]
["render t g.json", "x", "{\"x\": \"\\ud800\"}", 3, "", "liquid: bad JSON in g.json\n"]
["render t g.json", "x", "{\"x\": 01}", 3, "", "liquid: bad JSON in g.json\n"]
["render t g.json", "x", "{'x': 1}", 3, "", "liquid: bad JSON in g.json\n"]
["render t g.json", "x", "{\"x\": 1e999}", 3, "", "liquid: bad JSON in g.json\n"]
["render t g.json", "x", "\ufeff{}", 3, "", "liquid: bad JSON in g.json\n"]
["render t g.json", "x", ["{\"x\": \"", 255, "\"}"], 3, "", "liquid: cannot read g.json\n"]
["render t g.json", ["a", 255], "[1]", 3, "", "liquid: cannot read t\n"]
["render t g.json", "{{ ! }}", "[1]", 3, "", "liquid: Object cannot be an array.\n"]
["render t g.json", "x", "null", 3, "", "liquid: Object cannot be a scalar.\n"]
["render t g.json", "x", "\"x\"", 3, "", "liquid: Object cannot be a scalar.\n"]
["render t g.json", "x", "{\"x\": 9223372036854775808}", 3, "", "liquid: Cannot fit number\n"]
["render t g.json", "x", "{\"x\": [1.5]}", 3, "", "liquid: Fractional number\n"]
["render t g.json", "x", "{\"y\": 1.5, \"x\": 9223372036854775808}", 3, "", "liquid: Cannot fit number\n"]
["render t g.json", "{{ x }}", "{\"x\": 1.5, \"x\": 2}", 0, "2", ""]"#;

#[test]
fn globals_are_an_object_of_values(rt: HostRuntime) -> Result<(), Fail> {
    rows_hold(rt.alloc(), GLOBALS, row_holds)
}

/// Arrays in arrays under the name `x`, in rows of the same places.
const NESTED: &str =
    r#"["render t g.json", "", ["{\"x\": ", ["[", 126], ["]", 126], "}"], 0, "", ""]
["render t g.json", "", ["{\"x\": ", ["[", 127], ["]", 127], "}"], 3, "", "liquid: bad JSON in g.json\n"]
["render t g.json", "", ["{\"x\": ", ["[", 1000000], ["]", 1000000], "}"], 3, "", "liquid: bad JSON in g.json\n"]"#;

#[test]
fn globals_nest_to_a_depth(rt: HostRuntime) -> Result<(), Fail> {
    rows_hold(rt.alloc(), NESTED, row_holds)
}

/// Numbers that are integers or decimals, with `--decimals`.
const DECIMALS: &str =
    r#"["render --decimals t g.json", "{{ x }}|{{ y }}", "{\"x\": 1.50, \"y\": -0.05}", 0, "1.50|-0.05", ""]
["render --decimals t g.json", "{{ x[0] }} {{ x[1].y }}", "{\"x\": [2.5, {\"y\": 0.125}]}", 0, "2.5 0.125", ""]
["render --decimals t g.json", "{{ x }}", "{\"x\": 1e3}", 0, "1000", ""]
["render --decimals t g.json", "{{ x }}", "{\"x\": 1.5e2}", 0, "150", ""]
["render --decimals t g.json", "{{ x }}", "{\"x\": 15E-1}", 0, "1.5", ""]
["render --decimals t g.json", "{{ x }}", "{\"x\": 1.50e+1}", 0, "15.0", ""]
["render --decimals t g.json", "{{ x }}", "{\"x\": 2e-3}", 0, "0.002", ""]
["render --decimals t g.json", "{{ x }}{{ y }}", "{\"x\": -0, \"y\": -0.0}", 0, "00.0", ""]
["render --decimals t g.json", "{{ x }}", "{\"x\": 0.123456789012345678}", 0, "0.123456789012345678", ""]
["render --decimals t g.json", "{{ x }}", "{\"x\": 0.1234567890123456789}", 3, "", "liquid: Fractional number\n"]
["render --decimals t g.json", "{{ x }}", "{\"x\": -9223372036854775808}", 0, "-9223372036854775808", ""]
["render --decimals t g.json", "{{ x }}", "{\"x\": 9223372036854775808}", 3, "", "liquid: Cannot fit number\n"]
["render --decimals t g.json", "{{ x }}", "{\"x\": 922337203685477580.8}", 3, "", "liquid: Fractional number\n"]
["render --decimals t g.json", "{{ x }}", "{\"x\": 1e19}", 3, "", "liquid: Fractional number\n"]
["render --decimals t g.json", "{{ x }}", "{\"x\": 1e999}", 3, "", "liquid: Fractional number\n"]
["render --decimals t g.json", "x", "{\"y\": 1e30, \"x\": 9223372036854775808}", 3, "", "liquid: Fractional number\n"]
["render --decimals t g.json", "{{ x }}", "{\"x\": 1.5, \"x\": 2}", 0, "2", ""]
["render --decimals t g.json", "{{ x }}", "{\"x\": true, \"y\": null}", 0, "true", ""]
["render --decimals t g.json", "x", "[1.5]", 3, "", "liquid: Object cannot be an array.\n"]
["render --decimals t g.json", "x", "1.5", 3, "", "liquid: Object cannot be a scalar.\n"]
["render --decimals t g.json", "x", "{\"x\": 1.}", 3, "", "liquid: bad JSON in g.json\n"]
["render --decimals t g.json", "", ["{\"x\": ", ["[", 126], ["]", 126], "}"], 0, "", ""]
["render --decimals t g.json", "", ["{\"x\": ", ["[", 127], ["]", 127], "}"], 3, "", "liquid: bad JSON in g.json\n"]
["render --decimals --decimals t g.json", "x", "{}", 2, "", "USAGE"]"#;

#[test]
fn globals_have_decimals(rt: HostRuntime) -> Result<(), Fail> {
    rows_hold(rt.alloc(), DECIMALS, row_holds)
}
