//! `liquid page` and `liquid check` over files in memory: what they print, and which files they write.
use crate::sites::{add_files, add_trees, has_files};
use filter_dates::moment_of;
use jekyll_language::{SiteBlocks, SiteFilters, SiteTags, site_language};
use liquid_dates::DateTime;
use liquid_error::Error;
use liquid_files::InMemoryFolder;
use liquid_filters::{FilterPlugin, StdKind, filters};
use liquid_page::{
    AsItIs, Explain, FromJekyll, NoRequest, Request, Rewrite, Task, check_pages, read_render_words,
    read_words, run_page,
};
use liquid_pages::PageLimit;
use liquid_parser::{Language, ParseBlock, ParseTag};
use liquid_plugins::{Discreet, ParseFilter};
use liquid_scalar::Scalar;
use liquid_std::marks::Marks;
use liquid_std::{StdBlocks, StdTags};
use liquid_value::Value;
use page_site::{Partials, Source};
use rows::{Line, rows_hold};
use serde_json::Value as Json;
use std::alloc::{AllocError, Global};
use std::rc::Rc;
use std::test::Fail;

/// Says where an error is, and nothing more.
#[derive(Drop)]
struct Places;

impl Explain for Places {
    fn explain(
        &self,
        alloc: Global,
        source: Source<'_>,
        _partials: &Partials,
        _stopped_by: Option<PageLimit>,
        error: &Error,
    ) -> Result<String, AllocError> {
        let message = format!(in alloc; "{error}")?;
        let first = message.as_str().lines().next().unwrap_or("");
        format!(in alloc; "{}: {first}\n", source.path)
    }
}

/// What a command printed, and its status.
#[derive(Drop)]
struct Ended {
    out: String,
    err: String,
    status: u8,
}

fn moment_in(alloc: Global, word: Option<&str>) -> Option<Option<DateTime>> {
    match word {
        Some(word) => {
            let text = String::from_str(alloc, word).ok()?;
            moment_of(alloc, &Value::Scalar(Scalar::Str(text)), None).ok()
        }
        None => Some(None),
    }
}

fn ended(out: Vec<u8>, err: Vec<u8>, status: u8) -> Option<Ended> {
    Some(Ended {
        out: String::from_utf8(out).ok()?,
        err: String::from_utf8(err).ok()?,
        status,
    })
}

fn perform(
    alloc: Global,
    task: Task,
    request: &Request<'_>,
    files: &mut InMemoryFolder,
) -> Option<Ended> {
    let moment = moment_in(alloc, request.moment)?;
    if request.is_jekyll {
        let language = Rc::new(alloc, site_language(alloc, moment).ok()?).ok()?;
        perform_in::<FromJekyll, SiteFilters, SiteTags, SiteBlocks>(
            alloc, language, task, request, files,
        )
    } else {
        let language = liquid_std::language(alloc, filters(alloc, moment).ok()?).ok()?;
        let language = Rc::new(alloc, language).ok()?;
        perform_in::<AsItIs, FilterPlugin<StdKind>, StdTags, StdBlocks>(
            alloc, language, task, request, files,
        )
    }
}

fn perform_in<R, F, T, B>(
    alloc: Global,
    language: Rc<Language<F, T, B>>,
    task: Task,
    request: &Request<'_>,
    files: &mut InMemoryFolder,
) -> Option<Ended>
where
    R: Rewrite,
    F: ParseFilter,
    T: ParseTag<F>,
    B: ParseBlock<F>,
    T::Node: Discreet<Marks>,
    B::Node: Discreet<Marks>,
{
    let mut out = Vec::new(alloc);
    let mut err = Vec::new(alloc);
    let status = match task {
        Task::Page => run_page::<Marks, R, F, T, B, Places, InMemoryFolder, _, _>(
            alloc, language, Places, request, files, &mut out, &mut err,
        ).status,
        Task::Check => check_pages::<R, F, T, B, Places, InMemoryFolder, _>(
            alloc, &language, &Places, request, files, &mut err,
        ),
    };
    ended(out, err, status)
}

/// Runs the words over these files. Of a text about a wrong word only the first line counts.
fn run(alloc: Global, words: &[String], files: &mut InMemoryFolder) -> Option<Ended> {
    let (first, rest) = words.split_first()?;
    let task = if first.as_str() == "check" {
        Task::Check
    } else {
        Task::Page
    };
    match read_words(alloc, task, rest) {
        Ok(request) => perform(alloc, task, &request, files),
        Err(NoRequest::Help(_)) => ended(Vec::new(alloc), Vec::new(alloc), 0),
        Err(NoRequest::Wrong(text)) => Some(Ended {
            out: String::new(alloc),
            err: String::from_str(alloc, text.as_str().lines().next().unwrap_or("")).ok()?,
            status: 2,
        }),
        Err(NoRequest::Memory) => None,
    }
}

/// Writes what the words of `render --jekyll` say: the template, the object, the folder and whether a missing name is nil.
fn render_words_hold(alloc: Global, row: &Line) -> bool {
    let Some(words) = row.list(0).and_then(|list| words_of(alloc, list)) else {
        return false;
    };
    let said = match read_render_words(alloc, words.as_slice()) {
        Ok(request) => format!(in alloc;
            "{} {} {} {} {}",
            request.templates.first().map_or("", |word| *word),
            request.data_words.first().map_or("", |word| *word),
            request.folder.unwrap_or("-"),
            request.output.unwrap_or("-"),
            request.options.leniency.is_lenient(),
        ),
        Err(NoRequest::Wrong(text)) => {
            String::from_str(alloc, text.as_str().lines().next().unwrap_or(""))
        }
        Err(_) => return false,
    };
    said.is_ok_and(|said| row.text(1) == Some(said.as_str()))
}

/// Returns `true` if a command's help has at most 80 columns.
fn help_is_narrow(alloc: Global, row: &Line) -> bool {
    let Some(words) = row.list(0).and_then(|list| words_of(alloc, list)) else {
        return false;
    };
    let Some((command, rest)) = words.as_slice().split_first() else {
        return false;
    };
    let answer = match command.as_str() {
        "page" => read_words(alloc, Task::Page, rest),
        "check" => read_words(alloc, Task::Check, rest),
        _ => read_render_words(alloc, rest),
    };
    match answer {
        Err(NoRequest::Help(text)) => text.as_str().lines().all(|line| line.chars().count() <= 80),
        _ => false,
    }
}

fn words_of(alloc: Global, list: &Vec<Json>) -> Option<Vec<String>> {
    let mut words = Vec::new(alloc);
    for word in list {
        words
            .push(String::from_str(alloc, word.as_str()?).ok()?)
            .ok()?;
    }
    Some(words)
}

fn command_holds(alloc: Global, row: &Line) -> bool {
    let mut files = InMemoryFolder::new(alloc);
    let (Some(given), Some(trees), Some(left)) = (row.list(0), row.list(1), row.list(6)) else {
        return false;
    };
    if !add_files(alloc, &mut files, given) || !add_trees(alloc, &mut files, trees) {
        return false;
    }
    let Some(words) = row.list(2).and_then(|list| words_of(alloc, list)) else {
        return false;
    };
    match run(alloc, words.as_slice(), &mut files) {
        Some(ended) => says(row, &ended) && has_files(&files, left),
        None => false,
    }
}

fn says(row: &Line, ended: &Ended) -> bool {
    row.text(3) == Some(ended.out.as_str())
        && row.text(4) == Some(ended.err.as_str())
        && row.number(5) == Some(i64::from(ended.status))
}

// The files, the folders, the words, what is printed, what is written as an error, the status, and the files that are there
// then.
const PRINTED: &str =
    r#"[[["t", "Hi {{ name }}"], ["d.json", "{\"name\": \"Ada\"}"]], [], ["page", "t", "--data", "d.json"], "Hi Ada", "", 0, []]
[[["t", "{{ a.b }} {{ n }}"], ["d.toml", "n = 2\n[a]\nb = 1\n"]], [], ["page", "--data=d.toml", "t", "--set", "a.b=x"], "x 2", "", 0, []]
[[["t", "{{ n }}{{ m }}"], ["a.json", "{\"n\":1,\"m\":1}"], ["b.json", "{\"n\":2}"]], [], ["page", "t", "--data", "a.json", "--data", "b.json"], "21", "", 0, []]
[[["t", "{{ c.n }}"], ["a.json", "{\"n\":1.50}"]], [], ["page", "t", "--data", "c=a.json"], "1.50", "", 0, []]
[[["t", "{% for p in people %}{{ p.name }};{% endfor %}"], ["d/people.csv", "name,age\nAda,1\nBob,2\n"]], [], ["page", "t", "--data", "d/people.csv"], "Ada;Bob;", "", 0, []]
[[["t", "{% for p in staff %}{{ p.name }};{% endfor %}"], ["d/people.csv", "name,age\nAda,1\nBob,2\n"]], [], ["page", "t", "--data", "staff=d/people.csv"], "Ada;Bob;", "", 0, []]
[[["t", "{{ a.b }}"], ["d.json", "{\"b\": 1}"]], [], ["page", "t", "--data", "a=d.json"], "1", "", 0, []]
[[["t", "x"]], [], ["page", "-", "--data", "-"], "", "liquid: standard input can be one template, one file of data or the lines of --watch", 2, []]
[[["t", "x"]], [], ["page", "/dev/stdin", "--data", "-"], "", "liquid: standard input can be one template, one file of data or the lines of --watch", 2, []]
[[["t", "x"]], [], ["page", "t", "--data", "a=-", "--data", "-"], "", "liquid: standard input can be one template, one file of data or the lines of --watch", 2, []]
[[["t", "x"]], [], ["page", "-", "--watch", "-o", "o"], "", "liquid: standard input can be one template, one file of data or the lines of --watch", 2, []]
[[["t", "\ufeff{{ n }}"], ["d.json", "\ufeff{\"n\":1}"]], [], ["page", "t", "--data", "d.json"], "1", "", 0, []]
[[["t", "{{ n }}"], ["/dev/stdin", "{\"n\":1}"]], [], ["page", "t", "--data", "-"], "1", "", 0, []]
[[["/dev/stdin", "x"]], [], ["page", "-"], "x", "", 0, []]
[[["t", "{{ 'now' | date: '%Y' }}"]], [], ["page", "t", "--now", "2024-02-03T04:05:06Z"], "2024", "", 0, []]
[[["t", "[{{ none }}]"]], [], ["page", "t", "--lenient"], "[]", "", 0, []]
[[["t", "[{{ none }}]"]], [], ["page", "t", "--lenient", "--strict"], "", "t: liquid: Unknown variable\n", 1, []]
[[["t", "{% for i in (1..9) %}x{% endfor %}"]], [], ["page", "t", "--turns", "1k"], "xxxxxxxxx", "", 0, []]
[[["t", "{% render 'a' %}"], ["p/a.liquid", "A"]], [["p", ["a.liquid"]]], ["page", "t", "--partials", "p"], "A", "", 0, []]
[[["t", "---\nlayout: l\ntitle: T\n---\nx"], ["p/layouts/l.liquid", "<{{ page.title }} {{ content }}>"]], [["p", ["layouts/l.liquid"]]], ["page", "t", "--partials", "p"], "<T x>", "", 0, []]"#;

#[test]
fn one_page_is_printed(rt: HostRuntime) -> Result<(), Fail> {
    rows_hold(rt.alloc(), PRINTED, command_holds)
}

const WRITTEN: &str =
    r#"[[["t", "x"]], [], ["page", "t", "-o", "o.html"], "", "", 0, [["o.html", "x"]]]
[[["a/t.html.liquid", "x"]], [], ["page", "a/t.html.liquid", "-o", "o/"], "", "", 0, [["o/t.html", "x"]]]
[[["a", "x"], ["b", "y"]], [], ["page", "a", "b", "-o", "o"], "", "", 0, [["o/a", "x"], ["o/b", "y"]]]
[[["s/a.liquid", "{{ n }}"], ["s/b.css", "{{ n }}"], ["s/c/d.html", "---\nk: 1\n---\n{{ n }}{{ page.k }}"]], [["s", ["a.liquid", "b.css", "c/d.html"]]], ["page", "s", "-o", "o/", "--set", "n=7"], "", "", 0, [["o/a", "7"], ["o/b.css", "{{ n }}"], ["o/c/d.html", "71"]]]
[[["s/a", "---\n---\n{{ n }}"], ["s/b", "---\n---\nx"]], [["s", ["a", "b"]]], ["page", "s", "-o", "o/"], "", "s/a: liquid: Unknown variable\n", 1, [["o/a"], ["o/b", "x"]]]
[[["s/a", "x"], ["s/a.liquid", "y"]], [["s", ["a", "a.liquid"]]], ["page", "s", "-o", "o/"], "", "liquid: two pages would be o/a\n", 1, [["o/a"]]]
[[["t", "x{{ n }}"], ["o.html", "old"]], [], ["page", "t", "-o", "o.html"], "", "t: liquid: Unknown variable\n", 1, [["o.html", "old"]]]
[[["t", "x"], ["u", "{% if %}"], ["o/t", "old"], ["o/u", "old"]], [], ["page", "t", "u", "-o", "o/"], "", "u: liquid: Token expected (line 1, column 6)\n", 1, [["o/t", "x"], ["o/u", "old"]]]
[[["t", "x"]], [], ["page", "t", "-o", "t"], "", "liquid: cannot write t: the page is made from it\n", 1, [["t", "x"]]]
[[["t", "x"], ["d.json", "{}"]], [], ["page", "t", "--data", "d.json", "-o", "d.json"], "", "liquid: cannot write d.json: it is a file of data\n", 1, [["d.json", "{}"]]]
[[["t", "x"]], [], ["page", "t", "gone", "-o", "o/"], "", "liquid: cannot read gone: there is no such file or folder\n", 3, [["o/t", "x"], ["o/gone"]]]"#;

#[test]
fn pages_are_written(rt: HostRuntime) -> Result<(), Fail> {
    rows_hold(rt.alloc(), WRITTEN, command_holds)
}

const REFUSED: &str =
    r#"[[], [], ["page", "t", "--lenien"], "", "error: unexpected argument '--lenien' found", 2, []]
[[], [], ["page"], "", "error: the following required arguments were not provided:", 2, []]
[[], [], ["page", "t", "--data"], "", "error: a value is required for '--data <DATA>' but none was supplied", 2, []]
[[["t", "x"]], [], ["page", "t", "--turns", "5x"], "", "liquid: --turns 5x: not a whole number, such as 1000, 50k or 2M", 2, []]
[[["t", "x"]], [], ["page", "t", "--set", "n"], "", "liquid: --set n: no '=' after the name\n", 2, []]
[[["t", "x"]], [], ["page", "t", "--data", "d.yml"], "", "liquid: d.yml: data ends in .json, .toml or .csv\n", 2, []]
[[["t", "x"]], [], ["page", "t", "--data", "d.json"], "", "liquid: cannot read d.json: there is no such file or folder\n", 3, []]
[[["t", "x"], ["d.json", "{\"n\": 1,\n \"m\": }"]], [], ["page", "t", "--data", "d.json"], "", "liquid: d.json:2:7: invalid JSON\n2 |  \"m\": }\n  |       ^\n", 3, []]
[[["t", "x"], ["d.json", "[1]"]], [], ["page", "t", "--data", "d.json"], "", "liquid: d.json: Object cannot be an array.\n", 3, []]
[[["t", "x"]], [], ["page", "t", "--partials", "p"], "", "liquid: cannot read p: there is no such file or folder\n", 3, []]
[[["a", "x"], ["b", "y"]], [], ["page", "a", "b"], "", "liquid: several pages go to a folder: -o FOLDER/\n", 2, []]
[[], [], ["page", "--help"], "", "", 0, []]"#;

#[test]
fn wrong_words_and_files_are_named(rt: HostRuntime) -> Result<(), Fail> {
    rows_hold(rt.alloc(), REFUSED, command_holds)
}

const CHECKED: &str = r#"[[["t", "{{ n }}"]], [], ["check", "t"], "", "", 0, []]
[[["t", "{{ n | none }}"], ["u", "{% if %}"]], [], ["check", "t", "u"], "", "t: liquid: Unknown filter (line 1, column 8)\nu: liquid: Token expected (line 1, column 6)\n", 1, []]
[[["t", "a\n {{ n }}{{ m.k }}{% assign a = b %}{{ a }}{% for i in n %}{{ i.x }}{{ forloop.index }}{% endfor %}"], ["d.json", "{\"n\":[]}"]], [], ["check", "t", "--data", "d.json"], "", "warning: t:2:32: the data has no 'b'\nwarning: t:2:12: the data has no 'm'\n", 0, []]
[[["t", "{% include 'a' %}{% raw %}{{ z }}{% endraw %}{% comment %}{{ y }}{% endcomment %}"], ["p/a", "A"], ["p/b", "{{ 'x' | upcase }}"], ["p/layouts/l", "{{ content }}"]], [["p", ["a", "b", "layouts/l"]]], ["check", "t", "--partials", "p", "--set", "n=1"], "", "warning: nothing includes the partial 'b'\nwarning: nothing includes the partial 'layouts/l'\n", 0, []]
[[["t", "---\nlayout: l\n---\n{% include name %}"], ["p/b", "B"], ["p/layouts/l", "L"]], [["p", ["b", "layouts/l"]]], ["check", "t", "--partials", "p"], "", "", 0, []]
[[["t", "{{ 'yesterday' | date: '%Y' }} {{ d.at | date: '%Y' }} {{ '2024-01-15T12:00:00Z' | date: '%Y' }}"], ["d.json", "{\"d\": {\"at\": \"soon\"}}"]], [], ["check", "t", "--data", "d.json"], "", "warning: t:1:32: 'soon' is not a date\nwarning: t:1:1: 'yesterday' is not a date\n", 0, []]
[[["t", "---\na\n---\n"]], [], ["check", "t", "gone"], "", "liquid: t: line 2: a line is 'name: value' or a comment\nliquid: cannot read gone: there is no such file or folder\n", 3, []]"#;

#[test]
fn templates_are_checked(rt: HostRuntime) -> Result<(), Fail> {
    rows_hold(rt.alloc(), CHECKED, command_holds)
}

const JEKYLL: &str =
    r#"[[["t", "{% include nav/a.html x=\"1\" %}{{ none.b }}"], ["p/nav/a.html", "[{{ include.x }}]"]], [["p", ["nav/a.html"]]], ["page", "--jekyll", "t", "--partials", "p"], "[1]", "", 0, []]
[[["t", "{% include a.liquid %}"], ["p/a.liquid", "{{ '/b c' | relative_url }}"]], [["p", ["a.liquid"]]], ["page", "--jekyll", "t", "--partials", "p", "--set", "site.baseurl=/s"], "/s/b%20c", "", 0, []]
[[["t", "{% include a %}"], ["p/a.liquid", "A"]], [["p", ["a.liquid"]]], ["page", "--jekyll", "t", "--partials", "p"], "", "t: liquid: Unknown partial-template\n", 1, []]
[[["t", "{% include a.html %}"]], [], ["page", "t"], "", "t: liquid: Unknown variable\n", 1, []]
[[["t", "[{{ a[none].b }}{{ a[a] | default: \"x\" }}{% if a[none] %}y{% endif %}]"]], [], ["page", "--jekyll", "t", "--set", "a.b=1"], "[x]", "", 0, []]
[[["t", "{{ a[a] }}"]], [], ["page", "--lenient", "t", "--set", "a.b=1"], "", "t: liquid: Expected scalar\n", 1, []]
[[["t", "{{ none }}"]], [], ["page", "--jekyll", "--strict", "t"], "", "t: liquid: Unknown variable\n", 1, []]
[[["t", "---\nlayout: l\n---\n{% link a.md %}"], ["p/layouts/l", "<{{ content }}>{% include a.html %}"], ["p/a.html", "A"], ["d.json", "{\"site\": {\"pages\": [{\"path\": \"a.md\", \"url\": \"/a/\"}]}}"]], [["p", ["layouts/l", "a.html"]]], ["page", "--jekyll", "t", "--partials", "p", "--data", "d.json"], "</a/>A", "", 0, []]
[[["t", "a\n{% include nav/a.html %}{{ x | none }}"], ["p/nav/a.html", "{% link %}"], ["p/b.html", ""]], [["p", ["nav/a.html", "b.html"]]], ["check", "--jekyll", "t", "--partials", "p"], "", "nav/a.html: liquid: Token expected (line 1, column 8)\nt: liquid: Unknown filter (line 2, column 32)\nwarning: nothing includes the partial 'b.html'\n", 1, []]"#;

#[test]
fn templates_of_jekyll_are_rendered(rt: HostRuntime) -> Result<(), Fail> {
    rows_hold(rt.alloc(), JEKYLL, command_holds)
}

const RENDER_WORDS: &str = r#"[["--jekyll", "t", "g.json"], "t g.json - - true"]
[["t", "--standard", "g.json", "p", "--jekyll", "--lenient"], "t g.json p - true"]
[["--jekyll", "-o", "o.html", "--strict", "t", "g.json"], "t g.json - o.html false"]
[["--jekyll", "-", "-"], "liquid: standard input can be one template, one file of data or the lines of --watch"]
[["--jekyll", "/dev/stdin", "-", "p"], "liquid: standard input can be one template, one file of data or the lines of --watch"]
[["--jekyll", "t"], "error: the following required arguments were not provided:"]
[["--jekyll", "t", "g.json", "p", "q"], "error: unexpected argument 'q' found"]
[["--jekyll", "t", "g.json", "--turns", "x"], "liquid: --turns x: not a whole number, such as 1000, 50k or 2M"]"#;

#[test]
fn words_of_render_are_read(rt: HostRuntime) -> Result<(), Fail> {
    rows_hold(rt.alloc(), RENDER_WORDS, render_words_hold)
}

const HELP: &str = r#"[["page", "--help"]]
[["check", "--help"]]
[["render", "--jekyll", "--help"]]"#;

#[test]
fn help_fits_80_columns(rt: HostRuntime) -> Result<(), Fail> {
    rows_hold(rt.alloc(), HELP, help_is_narrow)
}
