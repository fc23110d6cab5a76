//! What each call gives.

/// The calls, each with its group and the text of its result with ample memory, up to a bar at a line's end.
static CALLS: &str = r#"dates format | 2016-047, Tuesday|
dates rfc_2822 | Tue, 16 Feb 2016 00:00:00 +0000|
errors with_msg | liquid: m
|
errors with_text | liquid: n
|
errors at_place | liquid: m (line 1, column 2)
|
errors trace | liquid: a
from: t
|
errors trace_result | liquid: a
from: t
|
errors context | liquid: a
  with:
    k=v
|
errors key | liquid: a
  with:
    k=v
|
errors made_key | liquid: a
  with:
    k=v
|
errors cause | liquid: a
|
errors or_place | liquid: a
|
errors clone | liquid: a
|
errors clone_report | liquid: a
|
errors clone_cause | liquid: a
|
errors clone_kept | liquid: a

|
errors kept | liquid: a

|
errors chain | liquid: b
|
errors lossy_chain | liquid: b
|
errors replace | liquid: b
|
json to_value | {"a": b1two, "i": b, }|
json to_object | {"a": b1two, "i": b, }|
json into_value | {"a": b1two, "i": b, }|
json into_object | {"a": b1two, "i": b, }|
json object_from_str | {"a": b1two, "i": b, }|
json to_scalar | "b"|
json from_value | [1,"two",{"k":"v"}]|
paths with_index | a|
paths push | done|
paths reserve | done|
paths extend | done|
paths clone | a.b|
paths step | 3|
paths try_find | 3|
paths find | liquid: Unknown index
  with:
    variable=2
    requested index=x
    available indexes=k
|
paths find_after | liquid: Unknown index
  with:
    variable=l
    requested index=x
    available indexes=0..2, first, last
|
plugins register | false|
plugins clone_registry | append fail |
plugins clone_language | append fail |
plugins clone_expression | a[i]|
plugins clone_variable | a[i]|
plugins evaluate | [1, two, ]|
plugins try_evaluate | [1, two, ]|
plugins variable_evaluate | a.b|
plugins variable_try_evaluate | a.b|
plugins variable_extend | done|
plugins push_literal | a[1]|
plugins chain_evaluate | "1two!"|
plugins of_name | a | |
plugins call_filter | liquid: bad
|
runtimes get | 1|
runtimes try_get | 1|
runtimes get_refused | liquid: Unknown variable
  with:
    requested variable=none
|
runtimes roots | a i |
runtimes set_global | nothing|
runtimes set_index | nothing|
values clone | [1, two, kv, ]|
values into_owned | [1, two, kv, ]|
values to_value | [1, two, kv, ]|
values shared_array_push | [1, two, kv, ]|
values cow_clone | "m"|
values scalar_clone | "m"|
values array | [5, 6, 7, 8, 9, 10, 11, ]|
values to_kstr | 1twokv|
values scalar_into_owned | "seven"|
values scalar_to_kstr | 7|
values into_string | 7|
values into_cow_str | 7|
values insert | done|
values object_extend | done|
values array_push | done|
values array_extend | done|
values array_of | [a, b, ]|
values object_of | {"k": 1, }|
values lookup | {"b": 1two, }|
values shared_object_insert | {"b": 1two, }|
values keys | a i|
"#;

/// Returns the text of a row's result, or `None` if the row is of another call.
fn wanted_in(row: &'static str, group: &str, word: &str) -> Option<&'static str> {
    let (call, wanted) = row.split_once(" | ")?;
    if call.split_once(' ') == Some((group, word)) {
        Some(wanted)
    } else {
        None
    }
}

/// Returns what a call returns with ample memory, or an empty text if no call has this name.
pub fn wanted(group: &str, word: &str) -> &'static str {
    for row in CALLS.split("|\n") {
        if let Some(wanted) = wanted_in(row, group, word) {
            return wanted;
        }
    }
    ""
}
