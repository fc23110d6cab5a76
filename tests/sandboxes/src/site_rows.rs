//! Sites of the tag library, each of which has the same result whatever is around its sandbox.
use crate::faulty_sites::FAULTY;
use crate::lenient_library_rows;
use crate::lenient_rows::{FRAMES, INDEXES, NAMES};
use crate::lenient_sites::LENIENT;
use crate::parents::{self, EMPTY_OR_FULL, STRICT};
use crate::plain_rows::ROWS;
use crate::plain_sites::PLAIN;
use crate::refused_sites::REFUSED;
use crate::tables::{Table, library_tables_hold, plain_tables_hold};
use std::test::Fail;

/// A loop over a partial that assigns and counts, without and with a name that only a parent has.
static COUNTED: &str =
    r#"{"template": "{% for i in (1..2) %}{% include \"b\" %}{% endfor %}{% assign a = s %}", "data": {"s": 3}, "partials": [["b", "{{ i }}{% assign d = i %}{% increment c %}"]], "written": "1021", "assigned": {"d": "2", "a": "3"}, "counted": {"c": "2"}}
{"template": "{% for i in (1..2) %}{% include \"b\" %}{% endfor %}{% assign a = s %}", "data": {"s": 3}, "partials": [["b", "{{ i }}{% assign d = i %}{% increment c %}{{ z }}"]], "written": "10", "error": "liquid: Unknown variable\n  with:\n    requested variable=z\nfrom: include b\n", "assigned": {"d": "1"}, "counted": {"c": "1"}}
{"template": "{% for i in (1..2) %}{% include \"b\" %}{% endfor %}{% assign g = s %}", "data": {"s": 3}, "partials": [["b", "{{ i }}{% assign h = i %}{% increment c %}"]], "written": "1021", "assigned": {"h": "2", "g": "3"}, "counted": {"c": "2"}}
{"template": "{% for i in (1..2) %}{% include \"b\" %}{% endfor %}{% assign g = s %}", "data": {"s": 3}, "partials": [["b", "{{ i }}{% assign h = i %}{% increment c %}{{ t }}"]], "written": "10", "error": "liquid: Unknown variable\n  with:\n    requested variable=t\nfrom: include b\n", "assigned": {"h": "1"}, "counted": {"c": "1"}}"#;

/// Pages that are rendered in isolation: what they assign is seen, and nothing of it is left.
static ISOLATED: &str =
    r#"{"isolated": true, "template": "{% assign y = 1 %}{{ y }}", "written": "1"}
{"isolated": true, "template": "{{ a }}", "written": "", "error": "liquid: Unknown variable\n  with:\n    requested variable=a\n"}
{"isolated": true, "template": "{% assign b = 2 %}{{ b }}{{ z }}", "data": {"b": 1}, "written": "2", "error": "liquid: Unknown variable\n  with:\n    requested variable=z\n"}
{"isolated": true, "template": "{% increment c %}{% increment c %}", "written": "01", "counted": {"c": "2"}}
{"isolated": true, "template": "{% assign a = 5 %}{% include \"q\" %}{{ a }}", "partials": [["q", "{{ a }}{% assign a = 6 %}"]], "written": "56"}
{"isolated": true, "template": "{% for i in (1..3) %}{% assign s = i %}{% break %}{% endfor %}{{ s }}", "data": {"s": 0}, "written": "1"}"#;

#[test]
fn an_isolated_page_keeps_what_it_assigns(rt: HostRuntime) -> Result<(), Fail> {
    let isolated = Table::strict(ISOLATED, EMPTY_OR_FULL, 6);
    library_tables_hold(rt.alloc(), &[isolated])
}

#[test]
fn sites_are_the_same(rt: HostRuntime) -> Result<(), Fail> {
    library_tables_hold(
        rt.alloc(),
        &[
            Table::strict(COUNTED, EMPTY_OR_FULL, 4),
            Table::strict(PLAIN, EMPTY_OR_FULL, 80),
        ],
    )
}

#[test]
fn refused_sites_are_the_same(rt: HostRuntime) -> Result<(), Fail> {
    library_tables_hold(
        rt.alloc(),
        &[
            Table::strict(REFUSED, EMPTY_OR_FULL, 98),
            Table::strict(FAULTY, EMPTY_OR_FULL, 40),
        ],
    )
}

#[test]
fn lenient_sites_are_the_same(rt: HostRuntime) -> Result<(), Fail> {
    library_tables_hold(
        rt.alloc(),
        &[
            Table::lenient(LENIENT, EMPTY_OR_FULL, 70),
            Table::lenient(lenient_library_rows::NAMES, parents::LENIENT, 10),
            Table::lenient(lenient_library_rows::BLOCKS, parents::LENIENT, 10),
            Table::lenient(lenient_library_rows::PARTIALS, parents::LENIENT, 11),
        ],
    )
}

#[test]
fn a_sandbox_shows_its_data_alone(rt: HostRuntime) -> Result<(), Fail> {
    plain_tables_hold(
        rt.alloc(),
        &[
            Table::strict(ROWS, STRICT, 16),
            Table::lenient(NAMES, parents::LENIENT, 16),
            Table::lenient(INDEXES, parents::LENIENT, 12),
            Table::lenient(FRAMES, parents::LENIENT, 14),
        ],
    )
}
