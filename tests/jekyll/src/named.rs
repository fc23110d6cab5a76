//! Rows of Jekyll's filters that read names.
use crate::answers::{answered_among, is_shown};
use liquid_error::Error;
use liquid_json::to_object;
use liquid_value::Value;
use rows::{Line, rows_hold};
use std::alloc::Global;
use std::test::Fail;

/// The filter, its input, the names that it sees, and the text of what it returns.
const ROWS: &str =
    r#"["absolute_url", "/a&b/\"q\"/#it's", {"site": {"baseurl": "/base//", "url": "//cdn.example.org"}}, "//cdn.example.org/base//a&b/%22q%22/#it's"]
["relative_url", "tel:+1-2", {}, "tel:+1-2"]
["absolute_url", "feed.xml", {"site": {"baseurl": "/a b", "url": ""}}, "/a%20b/feed.xml"]
["relative_url", "./a;b/\\/A/|/", {"site": {"baseurl": "/é", "url": "https://a.b-c.example.org"}}, "/%C3%A9/a;b/%5C/A/%7C/"]
["absolute_url", "/", {"site": {"baseurl": "/b/", "url": "https://a.b-c.example.org"}}, "https://a.b-c.example.org/b/"]
["absolute_url", "data:text/plain,x", {"site": {"baseurl": "b/c/", "url": "https://example.org?x"}}, "data:text/plain,x"]
["absolute_url", "{b}/../.", {"site": {"baseurl": 5, "url": "https://example.org"}}, "https://example.org/5/"]
["absolute_url", "ftp://e.org:21/x", {"site": {"baseurl": 5, "url": "https://Example.ORG"}}, "ftp://e.org:21/x"]
["absolute_url", "/a?b?c", {"site": {"baseurl": "", "url": "https://Example.ORG"}}, "https://example.org/a?b?c"]
["absolute_url", "./ﬁ/", {"site": {"baseurl": "", "url": "https://example.org/sub"}}, "https://example.org/sub/fi/"]
["relative_url", "/é/{b}/a&b/|", {"site": {"baseurl": "/b/"}}, "/b/%C3%A9/%7Bb%7D/a&b/%7C"]
["relative_url", "ftp://e.org:21/x", {"site": {"baseurl": "/é", "url": ""}}, "ftp://e.org:21/x"]
["relative_url", "/|/é", {"site": {"baseurl": "/", "url": "http://localhost:4000"}}, "/%7C/%C3%A9"]
["absolute_url", "/a.", {"site": {"baseurl": "base", "url": "//cdn.example.org"}}, "//cdn.example.org/base/a."]
["relative_url", "/{b}/a+b/@me/%2F?q=a%20b&q=a+b", {"site": {"baseurl": "", "url": "https://example.org:443"}}, "/%7Bb%7D/a+b/@me/%2F?q=a%20b&q=a+b"]
["relative_url", "/x/index.html", {"site": {"baseurl": "/", "url": "//cdn.example.org"}}, "/x/index.html"]
["relative_url", "/", {"site": {"url": "https://example.org/"}}, "/"]
["relative_url", "about", {"site": {"baseurl": 5, "url": "https://example.org/sub"}}, "/5/about"]
["relative_url", "/a/../b", {"site": {"baseurl": "/base//", "url": "//cdn.example.org"}}, "/base//b"]
["absolute_url", -1, {"site": {"baseurl": "/b/c", "url": "HTTPS://example.org"}}, "https://example.org/b/c/-1"]
["relative_url", "a:b/c", {}, "a:b/c"]
["absolute_url", "/a/./b/", {"site": {"baseurl": "/base/", "url": "https://example.org?x"}}, "https://example.org/?x/base/a/b/"]
["relative_url", " /x ", {"site": {"baseurl": "base", "url": ""}}, "/base/%20/x"]
["absolute_url", "/a?b=%2B+c", {"site": {"baseurl": "/base//", "url": "https://Example.ORG"}}, "https://example.org/base//a?b=%2B+c"]
["absolute_url", "/x/index.html", {"site": {"baseurl": "/b/c", "url": "HTTPS://example.org"}}, "https://example.org/b/c/x/index.html"]
["relative_url", "/a,b", {"site": {"baseurl": "/base", "url": "https://example.org:443"}}, "/base/a,b"]
["relative_url", "a:b/c", {"site": {"baseurl": "/", "url": "https://a.b-c.example.org"}}, "a:b/c"]
["relative_url", "//cdn.example.com/x.css", {"site": {"baseurl": "/b/c", "url": "https://Example.ORG"}}, "/b/c//cdn.example.com/x.css"]
["relative_url", "./A/a:b/$1/#é", {"site": {"baseurl": "/base", "url": "//cdn.example.org"}}, "/base/A/a:b/$1/#%C3%A9"]
["relative_url", "feed.xml", {"site": {"baseurl": 5, "url": "http://u:p@example.org:8080"}}, "/5/feed.xml"]
["absolute_url", "a:b", {"site": {"baseurl": "/é", "url": "http://u:p@example.org:8080"}}, "a:b"]
["relative_url", "/", {"site": {"baseurl": "/base//", "url": "http://127.0.0.1:80"}}, "/base//"]
["absolute_url", 5, {"site": {"baseurl": 5, "url": "HTTPS://example.org"}}, "https://example.org/5/5"]
["relative_url", "ü x/x_y-z", {"site": {"baseurl": "/", "url": "http://127.0.0.1:80"}}, "/%C3%BC%20x/x_y-z"]
["smartify", ".... \"... '\"x", {}, "…. “… ‘“x"]
["smartify", "a`b`", {}, "a`b`"]
["smartify", "\"...", {}, "“…"]
["smartify", "'quoted'-x's", {}, "‘quoted’-x’s"]
["smartify", "the '80s", {}, "the ’80s"]
["smartify", "'A' 'B'", {}, "‘A’ ‘B’"]
["relative_url", {"url": "/posts/x/", "title": "X"}, {"site": {"baseurl": "/b"}}, "/b/posts/x/"]
["absolute_url", {"url": "x"}, {"site": {"url": "https://e.org", "baseurl": "b"}}, "https://e.org/b/x"]
["relative_url", null, {"site": {"baseurl": "/b"}}, ""]
["absolute_url", null, {"site": {"url": "https://e.org"}}, ""]
["absolute_url", "/x", {"site": {"url": null, "baseurl": null}}, "/x"]
["absolute_url", "/x", {"site": "https://e.org"}, "/x"]
["absolute_url", "/x", {"url": "https://e.org", "baseurl": "/b"}, "/x"]
["markdownify", "*x*", {"rendered": {"markdownify": {"*x*": "<p><em>x</em></p>\n"}, "sassify": {"*x*": "no"}}}, "<p><em>x</em></p>\n"]
["markdownify", null, {"rendered": {"markdownify": {"": "\n"}}}, "\n"]
["markdownify", 12, {"rendered": {"markdownify": {"12": "<p>12</p>\n"}}}, "<p>12</p>\n"]
["markdownify", "size", {"rendered": {"markdownify": {"size": "<p>size</p>\n"}}}, "<p>size</p>\n"]
["sassify", "a\n  b: c", {"rendered": {"sassify": {"a\n  b: c": "a {\n  b: c;\n}\n"}}}, "a {\n  b: c;\n}\n"]
["scssify", "a { b: c }", {"rendered": {"scssify": {"a { b: c }": "a {\n  b: c;\n}\n"}}}, "a {\n  b: c;\n}\n"]
["smartify", "<b>\"x\"</b>", {"rendered": {"smartify": {"<b>\"x\"</b>": "<b>“x”</b>"}}}, "<b>“x”</b>"]
["smartify", "\"x\"", {"rendered": {"smartify": {"\"x\"": "it is the host's"}}}, "it is the host's"]
["smartify", null, {}, ""]"#;

/// The same for texts that are refused, with the text of the error.
const REFUSED: &str =
    r#"["markdownify", "*x*", {}, "liquid: No rendered text\n  with:\n    filter=markdownify\n    text=*x*\n"]
["markdownify", "*x*", {"rendered": {"markdownify": {"*y*": "y"}}}, "liquid: No rendered text\n  with:\n    filter=markdownify\n    text=*x*\n"]
["markdownify", "size", {"rendered": {"markdownify": {"*y*": "y"}}}, "liquid: No rendered text\n  with:\n    filter=markdownify\n    text=size\n"]
["markdownify", null, {"rendered": 1}, "liquid: No rendered text\n  with:\n    filter=markdownify\n    text=\n"]
["sassify", "a", {"rendered": {"scssify": {"a": "b"}}}, "liquid: No rendered text\n  with:\n    filter=sassify\n    text=a\n"]
["scssify", [1, "b"], {"rendered": {"scssify": "a"}}, "liquid: No rendered text\n  with:\n    filter=scssify\n    text=1b\n"]
["smartify", "a < b", {}, "liquid: No rendered text\n  with:\n    filter=smartify\n    text=a < b\n"]
["smartify", "a & b", {"rendered": {}}, "liquid: No rendered text\n  with:\n    filter=smartify\n    text=a & b\n"]
["smartify", "a\\", {}, "liquid: No rendered text\n  with:\n    filter=smartify\n    text=a\\\n"]
["smartify", "a\r\nb", {}, "liquid: No rendered text\n  with:\n    filter=smartify\n    text=a\r\nb\n"]"#;

/// Returns `true` if the filter of a row returns what the row says.
fn is_read(alloc: Global, row: &Line) -> bool {
    match (row.text(3), answer(alloc, row)) {
        (Some(wanted), Some(found)) => is_shown(alloc, &found, wanted),
        _ => false,
    }
}

/// Returns what the filter of a row returns, if it is a row.
fn answer(alloc: Global, row: &Line) -> Option<Result<Value, Error>> {
    match (row.text(0), row.member(1), row.member(2)) {
        (Some(name), Some(input), Some(names)) => match to_object(alloc, names) {
            Ok(names) => Some(answered_among(alloc, name, input, &[], names)),
            Err(_) => None,
        },
        _ => None,
    }
}

#[test]
fn names_are_read(rt: HostRuntime) -> Result<(), Fail> {
    rows_hold(rt.alloc(), ROWS, is_read)
}

#[test]
fn missing_texts_are_refused(rt: HostRuntime) -> Result<(), Fail> {
    rows_hold(rt.alloc(), REFUSED, is_read)
}
