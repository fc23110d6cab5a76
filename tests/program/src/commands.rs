//! The words of the command line.
use crate::runs::row_holds;
use rows::rows_hold;
use std::test::Fail;

/// Rows as `runs` describes them.
const COMMANDS: &str = r#"[["render", "t", "g.json"], "x", "{}", 0, "x", ""]
[["render", "u", "g.json"], "x", "{}", 0, "another file", ""]
[[], "x", "{}", 2, "", "USAGE"]
[["render"], "x", "{}", 2, "", "USAGE"]
[["render", "t"], "x", "{}", 2, "", "USAGE"]
[["render", "t", "g.json", "d", "e"], "x", "{}", 2, "", "USAGE"]
[["render", "t", "g.json", "d"], "x", "{}", 3, "", "liquid: cannot read d\n"]
[["print", "t", "g.json"], "x", "{}", 2, "", "USAGE"]
[["render", "--t", "g.json"], "x", "{}", 2, "", "USAGE"]
[["render", "--", "g.json"], "x", "{}", 2, "", "USAGE"]
[["render", "-t", "g.json"], "x", "{}", 3, "", "liquid: cannot read -t\n"]
[["render", "there/is none", "none.json"], "x", "{}", 3, "", "liquid: cannot read there/is none\n"]
[["render", "", "g.json"], "x", "{}", 3, "", "liquid: cannot read \n"]
[["render", "t", "none.json"], "x", "{}", 3, "", "liquid: cannot read none.json\n"]
[["render", "t", "--g.json"], "x", "{}", 3, "", "liquid: cannot read --g.json\n"]
[["render", "--sandboxed", "t", "g.json"], "x", "{}", 0, "x", ""]
[["--sandboxed", "render", "t", "g.json"], "x", "{}", 2, "", "USAGE"]
[["render", "--sandboxed"], "x", "{}", 2, "", "USAGE"]
[["render", "--sandboxed", "t"], "x", "{}", 2, "", "USAGE"]
[["render", "--sandboxed", "--sandboxed", "t", "g.json"], "x", "{}", 2, "", "USAGE"]
[["render", "--sandboxed", "--t", "g.json"], "x", "{}", 2, "", "USAGE"]
[["render", "--sandboxed", "t", "g.json", "d", "e"], "x", "{}", 2, "", "USAGE"]
[["render", "--sandboxed ", "t", "g.json"], "x", "{}", 2, "", "USAGE"]
[["render", "--lenient", "t", "g.json"], "x", "{}", 0, "x", ""]
[["render", "--sandboxed", "--lenient", "t", "g.json"], "x", "{}", 0, "x", ""]
[["render", "--lenient", "--sandboxed", "t", "g.json"], "x", "{}", 0, "x", ""]
[["render", "--lenient", "--lenient", "t", "g.json"], "x", "{}", 2, "", "USAGE"]
[["render", "--lenient", "--sandboxed", "--lenient", "t", "g.json"], "x", "{}", 2, "", "USAGE"]
[["render", "--sandboxed", "--lenient", "--sandboxed", "t", "g.json"], "x", "{}", 2, "", "USAGE"]
[["render", "--standard", "t", "g.json"], "x", "{}", 0, "x", ""]
[["render", "--sandboxed", "--lenient", "--standard", "t", "g.json"], "x", "{}", 0, "x", ""]
[["render", "--standard", "--standard", "t", "g.json"], "x", "{}", 2, "", "USAGE"]
[["render", "--lenient"], "x", "{}", 2, "", "USAGE"]
[["render", "--lenient", "t"], "x", "{}", 2, "", "USAGE"]
[["render", "--Lenient", "t", "g.json"], "x", "{}", 2, "", "USAGE"]
[["--lenient", "render", "t", "g.json"], "x", "{}", 2, "", "USAGE"]
[["render", "t", "--lenient", "g.json"], "x", "{}", 3, "", "liquid: cannot read --lenient\n"]
[["render", "t", "--sandboxed", "g.json"], "x", "{}", 3, "", "liquid: cannot read --sandboxed\n"]"#;

#[test]
fn words_are_a_command(rt: HostRuntime) -> Result<(), Fail> {
    rows_hold(rt.alloc(), COMMANDS, row_holds)
}
