//! A table whose second row does not pass. The program ends with status 1, as its file `status` says. A test can't
//! check that, since a failure of a test can't be ignored.

use rows::{Line, rows_hold};
use std::test::Fail;

const ROWS: &str = r#"[1, 1]
[2, 3]
[4, 4]"#;

fn is_pair(row: &Line) -> bool {
    match (row.number(0), row.number(1)) {
        (Some(first), Some(second)) => first == second,
        _ => false,
    }
}

fn main(rt: HostRuntime) -> Result<(), Fail> {
    rows_hold(rt.alloc(), ROWS, |_, row| is_pair(row))
}
