//! The long form of the command line: what it adds, and the words that stay what they are in the short form.
use crate::runs::row_holds;
use rows::rows_hold;
use std::test::Fail;

/// Words that are a command in the long form alone.
const LONG: &str = r#"["render -- - g.json", "x", "{}", 3, "", "liquid: cannot read /dev/stdin\n"]
["render t - --lenient --sandboxed", "x", "{}", 3, "", "liquid: cannot read /dev/stdin\n"]
["render -- t g.json -", "x", "{}", 3, "", "liquid: cannot read -\n"]
["render t g.json --lenient --sandboxed", "x", "{}", 0, "x", ""]
["render --lenient t g.json --sandboxed --standard", "x", "{}", 0, "x", ""]
["render t --lenient g.json --sandboxed", "x", "{}", 0, "x", ""]
["render t g.json d --lenient", "x", "{}", 3, "", "liquid: cannot read d\n"]
["render t --lenient g.json d", "x", "{}", 3, "", "liquid: cannot read d\n"]
["render --turns 5 t g.json", "x", "{}", 0, "x", ""]
["render t --turns 5 g.json", "x", "{}", 0, "x", ""]
["render t g.json --turns 5", "x", "{}", 0, "x", ""]
["render --turns 0 --bytes 1 t g.json", "x", "{}", 0, "x", ""]
["render --bytes 1 --standard --turns 0 t g.json", "x", "{}", 0, "x", ""]
["render --bytes 01 t g.json", "x", "{}", 0, "x", ""]
["render --bytes 18446744073709551615 t g.json", "x", "{}", 0, "x", ""]
["render -- t g.json", "x", "{}", 0, "x", ""]
["render --lenient -- t g.json", "x", "{}", 0, "x", ""]
["render -- --t g.json", "x", "{}", 3, "", "liquid: cannot read --t\n"]
["render -- t g.json --lenient", "x", "{}", 3, "", "liquid: cannot read --lenient\n"]
["render -- t --", "x", "{}", 3, "", "liquid: cannot read --\n"]
["render --turns 5 t none.json", "x", "{}", 3, "", "liquid: cannot read none.json\n"]"#;

/// Words that are not a command in either form.
const NONE: &str = r#"[["render", "--", "-", "-"], "x", "{}", 2, "", "USAGE"]
[["render", "-", "-", "--lenient", "--sandboxed"], "x", "{}", 2, "", "USAGE"]
[["render", "--turns", "t", "g.json"], "x", "{}", 2, "", "USAGE"]
[["render", "--turns", "", "t", "g.json"], "x", "{}", 2, "", "USAGE"]
[["render", "--turns", "-1", "t", "g.json"], "x", "{}", 2, "", "USAGE"]
[["render", "--turns", "+1", "t", "g.json"], "x", "{}", 2, "", "USAGE"]
[["render", "--turns", " 1", "t", "g.json"], "x", "{}", 2, "", "USAGE"]
[["render", "--turns", "1 ", "t", "g.json"], "x", "{}", 2, "", "USAGE"]
[["render", "--turns", "1_0", "t", "g.json"], "x", "{}", 2, "", "USAGE"]
[["render", "--turns", "0x1", "t", "g.json"], "x", "{}", 2, "", "USAGE"]
[["render", "--turns", "1.5", "t", "g.json"], "x", "{}", 2, "", "USAGE"]
[["render", "--turns", "١", "t", "g.json"], "x", "{}", 2, "", "USAGE"]
[["render", "--bytes", "18446744073709551616", "t", "g.json"], "x", "{}", 2, "", "USAGE"]
[["render", "--bytes", "184467440737095516150", "t", "g.json"], "x", "{}", 2, "", "USAGE"]
[["render", "--turns", "1", "--turns", "1", "t", "g.json"], "x", "{}", 2, "", "USAGE"]
[["render", "--bytes", "1", "t", "g.json", "--bytes", "2"], "x", "{}", 2, "", "USAGE"]
[["render", "--turns"], "x", "{}", 2, "", "USAGE"]
[["render", "--turns", "1"], "x", "{}", 2, "", "USAGE"]
[["render", "--turns", "1", "t"], "x", "{}", 2, "", "USAGE"]
[["render", "t", "g.json", "d", "--turns"], "x", "{}", 2, "", "USAGE"]
[["render", "t", "g.json", "d", "e", "--lenient"], "x", "{}", 2, "", "USAGE"]
[["render", "t", "g.json", "d", "--wide"], "x", "{}", 2, "", "USAGE"]
[["render", "--", "t"], "x", "{}", 2, "", "USAGE"]
[["render", "--", "t", "g.json", "d", "e"], "x", "{}", 2, "", "USAGE"]
[["render", "--lenient", "t", "g.json", "d", "--lenient"], "x", "{}", 2, "", "USAGE"]
[["--turns", "1", "render", "t", "g.json"], "x", "{}", 2, "", "USAGE"]"#;

/// Words of the short form: in the third place of a path, an option is the folder.
const SHORT: &str = r#"["render - g.json", "x", "{}", 3, "", "liquid: cannot read -\n"]
["render t g.json --lenient", "x", "{}", 3, "", "liquid: cannot read --lenient\n"]
["render t g.json --turns", "x", "{}", 3, "", "liquid: cannot read --turns\n"]
["render t --turns 1", "x", "{}", 3, "", "liquid: cannot read --turns\n"]
["render t -- g.json", "x", "{}", 3, "", "liquid: cannot read --\n"]
["render --lenient t g.json --", "x", "{}", 3, "", "liquid: cannot read --\n"]
["render t g.json --", "x", "{}", 3, "", "liquid: cannot read --\n"]"#;

#[test]
fn options_come_anywhere_in_the_long_form(rt: HostRuntime) -> Result<(), Fail> {
    rows_hold(rt.alloc(), LONG, row_holds)?;
    rows_hold(rt.alloc(), SHORT, row_holds)
}

#[test]
fn other_words_are_no_command(rt: HostRuntime) -> Result<(), Fail> {
    rows_hold(rt.alloc(), NONE, row_holds)
}
