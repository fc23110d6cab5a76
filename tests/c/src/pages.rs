//! Pages in the caller's memory, and how they end.
use liquid_c::each::render_each;
use liquid_c::page::{
    BYTES, DECIMALS, EMPTY, JEKYLL, LENIENT, NOW, Outcome, Page, SANDBOXED, STANDARD, TURNS,
};
use liquid_c::rendering::render;
use liquid_pages::PartialBytes;
use rows::holds;
use std::alloc::Global;
use std::test::Fail;

const PARTIALS: [PartialBytes<'static>; 2] = [
    PartialBytes {
        name: b"a",
        text: b"[{{ y }}]",
    },
    PartialBytes {
        name: b"b",
        text: b"\x80",
    },
];

/// The first partials, as many as there are of this number.
fn first_partials(count: usize) -> &'static [PartialBytes<'static>] {
    if count <= PARTIALS.len() {
        &PARTIALS[..count]
    } else {
        &PARTIALS
    }
}

/// The first bytes, as many as there are of this number.
fn front(bytes: &[u8], count: usize) -> &[u8] {
    if count <= bytes.len() {
        &bytes[..count]
    } else {
        bytes
    }
}

/// The room of this size, or all of it.
fn room_of(out: &mut [u8], size: usize) -> &mut [u8] {
    if size <= out.len() {
        &mut out[..size]
    } else {
        out
    }
}

/// Whether the bytes after this place are as they were.
fn is_untouched(bytes: &[u8], place: usize) -> bool {
    place <= bytes.len() && bytes[place..].iter().all(|byte| *byte == 35)
}

/// A row: the template, the globals, how many partials, the options, the room, and the outcome's kind,
/// line, needed bytes and what is written.
type Row<'a> = (
    &'a [u8],
    &'a [u8],
    usize,
    u32,
    usize,
    u32,
    usize,
    usize,
    &'a [u8],
);

static ROWS: [Row<'static>; 21] = [
    (b"", b"{}", 0, 0, 0, 0, 0, 0, b""),
    (b"a{{ x }}c", b"{\"x\": 7}", 0, 0, 9, 0, 0, 3, b"a7c"),
    (b"a{{ x }}c", b"{\"x\": 7}", 0, 0, 2, 7, 0, 3, b"a7"),
    (b"a\n{{ x | }}", b"{}", 0, 0, 9, 1, 2, 0, b""),
    (b"ab{{ x }}", b"{}", 0, 0, 9, 2, 1, 2, b"ab"),
    (b"", b"{\"a\": }", 0, 0, 9, 3, 1, 0, b""),
    (b"", b"{\"a\": 1.5}", 0, 0, 9, 4, 0, 0, b""),
    (b"\xff", b"{}", 0, 0, 9, 5, 0, 0, b""),
    (b"", b"\xff", 0, 0, 9, 5, 0, 0, b""),
    (
        b"{% include 'a', y: x %}",
        b"{\"x\": 1}",
        1,
        0,
        9,
        0,
        0,
        3,
        b"[1]",
    ),
    (
        b"{% include 'a', y: x %}",
        b"{\"x\": 1}",
        2,
        0,
        9,
        5,
        0,
        0,
        b"",
    ),
    (
        b"{% assign x = 2 %}{{ x }}",
        b"{\"x\": 1}",
        0,
        SANDBOXED,
        9,
        0,
        0,
        1,
        b"1",
    ),
    (
        b"<{{ no.such.name }}>",
        b"{}",
        0,
        LENIENT,
        9,
        0,
        0,
        2,
        b"<>",
    ),
    (b"{{ 'a' | upcase }}", b"{}", 0, STANDARD, 9, 0, 0, 1, b"A"),
    (
        b"{% for i in (1..2) reversed %}{% cycle 'a', 'b' %}{{ i }}{% endfor %}",
        b"{}",
        0,
        STANDARD,
        9,
        0,
        0,
        4,
        b"a2b1",
    ),
    (
        b"{{ x }}",
        b"{\"x\": 1.50}",
        0,
        DECIMALS,
        9,
        0,
        0,
        4,
        b"1.50",
    ),
    (
        b"{% include a y=x %}<{{ none.b }}>",
        b"{\"x\": 1}",
        1,
        JEKYLL,
        9,
        0,
        0,
        4,
        b"[]<>",
    ),
    (
        b"{{ 'b c' | relative_url }}",
        b"{}",
        0,
        JEKYLL,
        9,
        0,
        0,
        6,
        b"/b%20c",
    ),
    (b"\xff", b"{}", 0, JEKYLL, 9, 5, 0, 0, b""),
    (b"{% include a %}", b"{}", 2, JEKYLL, 9, 5, 0, 0, b""),
    (b"a", b"{}", 0, 64, 9, 8, 0, 0, b""),
];

/// Returns `true` if a row's page ends as the row says, with the output of the row and no other byte.
fn is_rendered(alloc: Global, row: &Row<'_>) -> bool {
    let (text, globals, count, options, room, kind, line, needed, written) = *row;
    let page = Page {
        text,
        globals,
        partials: first_partials(count),
        options,
        max_turns: 0,
        max_bytes: 0,
        moment: b"",
    };
    let mut out = [35u8; 9];
    let mut message = [0u8; 128];
    let outcome = render(alloc, &page, room_of(&mut out, room), &mut message);
    outcome.kind == kind
        && outcome.line == line
        && outcome.needed == needed
        && front(&out, outcome.written) == written
        && is_untouched(&out, outcome.written)
}

#[test]
fn rows(rt: HostRuntime) -> Result<(), Fail> {
    for row in &ROWS {
        let (_, _, _, _, _, kind, line, needed, _) = *row;
        if !is_rendered(rt.alloc(), row) {
            let outcome = (kind, line, needed);
            return Err(Fail::new(format_args!("a page has another outcome than {outcome:?}")));
        }
    }
    Ok(())
}

#[test]
fn the_partial_that_is_no_text_is_named(rt: HostRuntime) -> Result<(), Fail> {
    let page = Page {
        text: b"",
        globals: b"{}",
        partials: &PARTIALS,
        options: 0,
        max_turns: 0,
        max_bytes: 0,
        moment: b"",
    };
    let outcome = render(rt.alloc(), &page, &mut [], &mut []);
    holds(
        outcome.which == 3 && outcome.partial == 1,
        "it is the text of the second partial",
    )
}

/// A row: the template, and the text in which its error is, the number of the partial, the line and the column.
static PLACES: [(&[u8], u32, usize, usize, usize); 6] = [
    (b"ab{{ x }}", 0, 0, 1, 6),
    (b"\xe9\x9b\xa8\n {{ x.y }}", 0, 0, 2, 5),
    (b"\n{% for i in x %}{% endfor %}", 0, 0, 2, 4),
    (b"{% include 'a' %}", 3, 0, 1, 5),
    (b"{% if true %}\n{% include 'a' %}{% endif %}", 3, 0, 1, 5),
    (b"{% include 'none' %}", 0, 0, 1, 4),
];

#[test]
fn an_error_of_rendering_has_a_place(rt: HostRuntime) -> Result<(), Fail> {
    for (text, which, partial, line, column) in &PLACES {
        let page = Page {
            text: *text,
            globals: b"{}",
            partials: first_partials(1),
            options: 0,
            max_turns: 0,
            max_bytes: 0,
            moment: b"",
        };
        let outcome = render(rt.alloc(), &page, &mut [], &mut []);
        let found = (outcome.which, outcome.partial, outcome.line, outcome.column);
        if found != (*which, *partial, *line, *column) {
            return Err(Fail::new(format_args!(
                "{outcome:?} is another place than {line}, {column}"
            )));
        }
    }
    Ok(())
}

#[test]
fn pages_are_rendered_in_turn(rt: HostRuntime) -> Result<(), Fail> {
    let page = Page {
        text: b"{{ x }}!",
        globals: b"",
        partials: &[],
        options: 0,
        max_turns: 0,
        max_bytes: 0,
        moment: b"",
    };
    let globals: [&[u8]; 4] = [b"{\"x\": 1}", b"{}", b"{\"x\": \"seven\"}", b"{\"x\": 2}"];
    let mut out = [35u8; 9];
    let mut outcomes = [EMPTY, EMPTY, EMPTY];
    let whole = render_each(
        rt.alloc(),
        &page,
        &globals,
        &mut out,
        &mut [],
        &mut outcomes,
    );
    holds(
        whole == 2 && &out == b"1!seven!#" && outcomes[1].kind == 2 && outcomes[2].written == 6,
        "two pages are whole, one after another, and the one between them is refused",
    )
}

/// The limits of turns and of bytes, the kind, the limit that stops the page, and what is written.
static LIMITS: [(u64, u64, u32, u32, &[u8]); 9] = [
    (0, 0, 0, 0, b"1.2.3."),
    (100, 6, 0, 0, b"1.2.3."),
    (100, 5, 2, BYTES, b"1.2.3"),
    (0, 2, 2, BYTES, b"1."),
    (1, 0, 2, TURNS, b"1."),
    (3, 0, 2, TURNS, b"1.2.3."),
    (4, 0, 0, 0, b"1.2.3."),
    (3, 6, 2, TURNS, b"1.2.3."),
    (4, 5, 2, BYTES, b"1.2.3"),
];

/// Returns how a page of three turns ends in these limits.
fn outcome_within(alloc: Global, max_turns: u64, max_bytes: u64, out: &mut [u8]) -> Outcome {
    let page = Page {
        text: b"{% for i in (1..3) %}{{ i }}.{% endfor %}",
        globals: b"{}",
        partials: &[],
        options: 0,
        max_turns,
        max_bytes,
        moment: b"",
    };
    render(alloc, &page, out, &mut [])
}

#[test]
fn a_page_past_its_limits_is_stopped(rt: HostRuntime) -> Result<(), Fail> {
    for (max_turns, max_bytes, kind, limit, written) in &LIMITS {
        let mut out = [35u8; 9];
        let outcome = outcome_within(rt.alloc(), *max_turns, *max_bytes, &mut out);
        let is_stopped = outcome.kind == *kind
            && outcome.limit == *limit
            && front(&out, outcome.written) == *written;
        if !is_stopped {
            return Err(Fail::new(format_args!("{outcome:?} is another than {kind}")));
        }
    }
    Ok(())
}

/// The options, the moment, the kind, and what is written.
static MOMENTS: [(u32, &[u8], u32, &[u8]); 8] = [
    (
        STANDARD | NOW,
        b"2024-02-29 04:05:06 +0100",
        0,
        b"29.2.2024",
    ),
    (
        STANDARD | NOW,
        b"Thu, 29 Feb 2024 04:05 GMT",
        0,
        b"29.2.2024",
    ),
    (STANDARD | NOW, b"2024-02-29", 0, b"29.2.2024"),
    (STANDARD, b"2024-02-29", 0, b"now"),
    (STANDARD | NOW, b"now", 9, b""),
    (STANDARD | NOW, b"2023-02-29", 9, b""),
    (STANDARD | NOW, b"\xff", 9, b""),
    (NOW, b"", 9, b""),
];

#[test]
fn now_is_the_moment_of_the_page(rt: HostRuntime) -> Result<(), Fail> {
    for (options, moment, kind, written) in &MOMENTS {
        let page = Page {
            text: b"{{ 'now' | date: '%e.%-m.%Y' }}",
            globals: b"{}",
            partials: &[],
            options: *options,
            max_turns: 0,
            max_bytes: 0,
            moment: *moment,
        };
        let mut out = [35u8; 9];
        let mut message = [0u8; 128];
        let outcome = render(rt.alloc(), &page, &mut out, &mut message);
        let text: &[u8] = if *kind == 9 {
            b"liquid: now is not a date or a date time\n"
        } else {
            b""
        };
        let is_right = outcome.kind == *kind
            && front(&out, outcome.written) == *written
            && front(&message, outcome.message_len) == text;
        if !is_right {
            return Err(Fail::new(format_args!("{outcome:?} is another than {kind}")));
        }
    }
    Ok(())
}
