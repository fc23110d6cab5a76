//! Limits on turns and on bytes: what is written, from one to as many as a page takes, and with 0, which is no limit.
use crate::runs::row_holds;
use rows::rows_hold;
use std::test::Fail;

/// Rows as `runs` describes them, each limit with lenient names and in a sandbox. A loop of three takes a turn for
/// each of its items and one for its end.
const ROWS: &str =
    r#"["render --turns 0 t g.json --lenient", "a{% for i in (1..3) %}bé{% endfor %}c", "{}", 0, "abébébéc", ""]
["render --turns 0 t g.json --sandboxed", "a{% for i in (1..3) %}bé{% endfor %}c", "{}", 0, "abébébéc", ""]
["render --turns 1 t g.json --lenient", "a{% for i in (1..3) %}bé{% endfor %}c", "{}", 1, "abé", "liquid: Rendering was stopped\n"]
["render --turns 1 t g.json --sandboxed", "a{% for i in (1..3) %}bé{% endfor %}c", "{}", 1, "abé", "liquid: Rendering was stopped\n"]
["render --turns 2 t g.json --lenient", "a{% for i in (1..3) %}bé{% endfor %}c", "{}", 1, "abébé", "liquid: Rendering was stopped\n"]
["render --turns 2 t g.json --sandboxed", "a{% for i in (1..3) %}bé{% endfor %}c", "{}", 1, "abébé", "liquid: Rendering was stopped\n"]
["render --turns 3 t g.json --lenient", "a{% for i in (1..3) %}bé{% endfor %}c", "{}", 1, "abébébé", "liquid: Rendering was stopped\n"]
["render --turns 3 t g.json --sandboxed", "a{% for i in (1..3) %}bé{% endfor %}c", "{}", 1, "abébébé", "liquid: Rendering was stopped\n"]
["render --turns 4 t g.json --lenient", "a{% for i in (1..3) %}bé{% endfor %}c", "{}", 0, "abébébéc", ""]
["render --turns 4 t g.json --sandboxed", "a{% for i in (1..3) %}bé{% endfor %}c", "{}", 0, "abébébéc", ""]
["render --turns 5 t g.json --lenient", "a{% for i in (1..3) %}bé{% endfor %}c", "{}", 0, "abébébéc", ""]
["render --turns 5 t g.json --sandboxed", "a{% for i in (1..3) %}bé{% endfor %}c", "{}", 0, "abébébéc", ""]
["render --bytes 0 t g.json --lenient", "a{% for i in (1..3) %}bé{% endfor %}c", "{}", 0, "abébébéc", ""]
["render --bytes 0 t g.json --sandboxed", "a{% for i in (1..3) %}bé{% endfor %}c", "{}", 0, "abébébéc", ""]
["render --bytes 1 t g.json --lenient", "a{% for i in (1..3) %}bé{% endfor %}c", "{}", 1, "a", "liquid: Rendering was stopped\n"]
["render --bytes 1 t g.json --sandboxed", "a{% for i in (1..3) %}bé{% endfor %}c", "{}", 1, "a", "liquid: Rendering was stopped\n"]
["render --bytes 2 t g.json --lenient", "a{% for i in (1..3) %}bé{% endfor %}c", "{}", 1, "a", "liquid: Rendering was stopped\n"]
["render --bytes 2 t g.json --sandboxed", "a{% for i in (1..3) %}bé{% endfor %}c", "{}", 1, "a", "liquid: Rendering was stopped\n"]
["render --bytes 3 t g.json --lenient", "a{% for i in (1..3) %}bé{% endfor %}c", "{}", 1, "a", "liquid: Rendering was stopped\n"]
["render --bytes 3 t g.json --sandboxed", "a{% for i in (1..3) %}bé{% endfor %}c", "{}", 1, "a", "liquid: Rendering was stopped\n"]
["render --bytes 4 t g.json --lenient", "a{% for i in (1..3) %}bé{% endfor %}c", "{}", 1, "abé", "liquid: Rendering was stopped\n"]
["render --bytes 4 t g.json --sandboxed", "a{% for i in (1..3) %}bé{% endfor %}c", "{}", 1, "abé", "liquid: Rendering was stopped\n"]
["render --bytes 7 t g.json --lenient", "a{% for i in (1..3) %}bé{% endfor %}c", "{}", 1, "abébé", "liquid: Rendering was stopped\n"]
["render --bytes 7 t g.json --sandboxed", "a{% for i in (1..3) %}bé{% endfor %}c", "{}", 1, "abébé", "liquid: Rendering was stopped\n"]
["render --bytes 10 t g.json --lenient", "a{% for i in (1..3) %}bé{% endfor %}c", "{}", 1, "abébébé", "liquid: Rendering was stopped\n"]
["render --bytes 10 t g.json --sandboxed", "a{% for i in (1..3) %}bé{% endfor %}c", "{}", 1, "abébébé", "liquid: Rendering was stopped\n"]
["render --bytes 11 t g.json --lenient", "a{% for i in (1..3) %}bé{% endfor %}c", "{}", 0, "abébébéc", ""]
["render --bytes 11 t g.json --sandboxed", "a{% for i in (1..3) %}bé{% endfor %}c", "{}", 0, "abébébéc", ""]
["render --bytes 12 t g.json --lenient", "a{% for i in (1..3) %}bé{% endfor %}c", "{}", 0, "abébébéc", ""]
["render --bytes 12 t g.json --sandboxed", "a{% for i in (1..3) %}bé{% endfor %}c", "{}", 0, "abébébéc", ""]"#;

#[test]
fn a_page_ends_at_its_limits(rt: HostRuntime) -> Result<(), Fail> {
    rows_hold(rt.alloc(), ROWS, row_holds)
}

/// Limits of both kinds.
const BOTH: &str =
    r#"["render --turns 2 --bytes 4 t g.json", "a{% for i in (1..3) %}bé{% endfor %}c", "{}", 1, "abé", "liquid: Rendering was stopped\n"]
["render --turns 1 --bytes 7 t g.json", "a{% for i in (1..3) %}bé{% endfor %}c", "{}", 1, "abé", "liquid: Rendering was stopped\n"]
["render --turns 4 --bytes 11 t g.json", "a{% for i in (1..3) %}bé{% endfor %}c", "{}", 0, "abébébéc", ""]"#;

#[test]
fn the_first_limit_ends_the_page(rt: HostRuntime) -> Result<(), Fail> {
    rows_hold(rt.alloc(), BOTH, row_holds)
}

/// Texts that are kept. They count when they are written, and each turn in them counts.
const KEPT: &str =
    r#"["render --standard --bytes 1 t g.json", "{% capture x %}0123456789{% endcapture %}a", "{}", 0, "a", ""]
["render --standard --bytes 10 t g.json", "{% capture x %}0123456789{% endcapture %}{{ x }}", "{}", 0, "0123456789", ""]
["render --standard --bytes 9 t g.json", "{% capture x %}0123456789{% endcapture %}{{ x }}", "{}", 1, "", "liquid: Rendering was stopped\n"]
["render --standard --bytes 3 t g.json", "{% ifchanged %}abc{% endifchanged %}{% ifchanged %}abc{% endifchanged %}", "{}", 0, "abc", ""]
["render --standard --bytes 2 t g.json", "{% ifchanged %}abc{% endifchanged %}", "{}", 1, "", "liquid: Rendering was stopped\n"]
["render --standard --turns 1 t g.json", "{% capture x %}a{% endcapture %}b", "{}", 1, "", "liquid: Rendering was stopped\n"]"#;

#[test]
fn a_kept_text_counts_when_it_is_written(rt: HostRuntime) -> Result<(), Fail> {
    rows_hold(rt.alloc(), KEPT, row_holds)
}

/// An error that comes before a limit is passed.
const ERROR: &str =
    r#"["render --bytes 1 t g.json", "a{{ x }}b", "{}", 1, "a", "liquid: Unknown variable\n  with:\n    requested variable=x\n"]"#;

#[test]
fn an_error_before_the_limit_is_that_error(rt: HostRuntime) -> Result<(), Fail> {
    rows_hold(rt.alloc(), ERROR, row_holds)
}

/// Which limit ended the page, where `--explain` says so.
const EXPLAINED: &str =
    r#"["render --explain --turns 2 t g.json", "a{% for i in (1..3) %}bé{% endfor %}c", "{}", 1, "abébé", "liquid: Rendering was stopped\n  the limit is --turns 2\n  at t, line 1, column 5\n  1 | a{% for i in (1..3) %}bé{% endfor %}c\n    |     ^^^^^^^^^^^^^^^\n"]
["render --explain --turns 9 --bytes 5 t g.json", "ab\n{{ x }}", "{\"x\": \"longer\"}", 1, "ab\n", "liquid: Rendering was stopped\n  the limit is --bytes 5\n  at t, line 2, column 4\n  2 | {{ x }}\n    |    ^\n"]
["render --explain --bytes 1 t g.json", "ab", "{}", 1, "", "liquid: Rendering was stopped\n  the limit is --bytes 1\n  rendering t\n"]"#;

#[test]
fn an_explanation_has_the_limit(rt: HostRuntime) -> Result<(), Fail> {
    rows_hold(rt.alloc(), EXPLAINED, row_holds)
}
