//! What Jekyll's filters, tags and blocks say about themselves.
use descriptions::{block_holds, filter_holds, tag_holds};
use jekyll_language::expressions::filters;
use jekyll_tags::{JekyllBlocks, JekyllLinks, JekyllTags};
use rows::{Line, holds};
use std::test::Fail;

/// The name of each filter, what it does, its parameters by position and those by keyword.
const FILTERS: &str = r#"["absolute_url", "Converts to a URL of the site.", "", ""]
["array_to_sentence_string", "Lists the items as in a sentence.", "connector (optional): The word before the last item, or `and`.", ""]
["cgi_escape", "Encodes for a URL.", "", ""]
["date_to_long_string", "Formats a date with the full name of its month.", "day (optional): How the day is written: `ordinal`, or as a number of two digits.; order (optional): What is first: the month with `US`, or the day.", ""]
["date_to_rfc822", "Formats a date time for mail and RSS.", "", ""]
["date_to_string", "Formats a date with the short name of its month.", "day (optional): How the day is written: `ordinal`, or as a number of two digits.; order (optional): What is first: the month with `US`, or the day.", ""]
["date_to_xmlschema", "Formats a date time for XML and Atom.", "", ""]
["find", "Returns the first item whose key fits a value.", "key (needed): The name of a property, or names with dots between them.; value (needed): What the key has to fit.", ""]
["find_exp", "Returns the first item for which a condition holds.", "item (needed): The name of an item in the condition, as a string literal.; condition (needed): The condition, as a string literal.", ""]
["group_by", "Groups the items by a key.", "key (needed): The name of a property, or names with dots between them.", ""]
["group_by_exp", "Groups the items for which a chain has the same value.", "item (needed): The name of an item in the chain, as a string literal.; chain (needed): The chain, as a string literal.", ""]
["inspect", "Converts the input to JSON, escaped for XML.", "", ""]
["jsonify", "Converts the input to JSON.", "", ""]
["markdownify", "Returns what the host has rendered of a string in Markdown.", "", ""]
["normalize_whitespace", "Replaces each run of whitespace by a space.", "", ""]
["number_of_words", "Counts the words.", "mode (optional): The name of a mode, or the default one.", ""]
["pop", "Removes the last items of an array.", "count (optional): How many items are left out, or one.", ""]
["push", "Appends an item to an array.", "item (needed): The new item.", ""]
["relative_url", "Converts to a path of the site.", "", ""]
["sassify", "Returns what the host has rendered of a string in Sass.", "", ""]
["scssify", "Returns what the host has rendered of a string in SCSS.", "", ""]
["shift", "Removes the first items of an array.", "count (optional): How many items are left out, or one.", ""]
["slugify", "Converts to a part of a URL.", "mode (optional): The name of a mode, or the default one.", ""]
["smartify", "Replaces quotes, dashes and dots by typographic ones.", "", ""]
["sort", "Sorts the items by a key.", "key (optional): The name of a property to go by, or names with dots between them.; nils (optional): Where items without a key are: `first` or `last`.", ""]
["strip_index", "Removes the name of an index page from a path.", "", ""]
["to_integer", "Converts the input to an integer.", "", ""]
["unshift", "Prepends an item to an array.", "item (needed): The new item.", ""]
["uri_escape", "Escapes for a URL.", "", ""]
["where", "Keeps the items whose key fits a value.", "key (needed): The name of a property, or names with dots between them.; value (optional): What the key has to fit, or anything that counts as true.", ""]
["where_exp", "Keeps the items for which a condition holds.", "item (needed): The name of an item in the condition, as a string literal.; condition (needed): The condition, as a string literal.", ""]
["xml_escape", "Escapes the special characters of XML.", "", ""]"#;

/// How many standard filters have no other meaning in Jekyll: all 65 but `find`, `sort` and `where`.
const STANDARD_FILTERS: usize = 62;

/// The name of each tag, and its description.
const TAGS: &str = r#"["include", "Renders a partial."]
["include_cached", "Renders a partial."]
["include_relative", "Renders a partial beside the page."]
["seo", "Renders the partial `seo`."]"#;

/// The name of each tag that writes a URL, and its description.
const LINKS: &str = r#"["link", "Writes the URL of a file of the site."]
["post_url", "Writes the URL of a post."]
["feed_meta", "Writes the element that names the site's feed."]"#;

/// The start and the end of the block, and its description.
const BLOCK: &str = r#"["highlight", "endhighlight", "Writes its part as code."]"#;

#[test]
fn filters_describe_themselves(rt: HostRuntime) -> Result<(), Fail> {
    let alloc = rt.alloc();
    let filters = filters(alloc, None)?;
    for line in FILTERS.lines() {
        let is_so = Line::of(alloc, line).is_some_and(|row| {
            filters
                .get(row.text(0).unwrap_or(""))
                .is_some_and(|filter| filter_holds(alloc, filter, line))
        });
        holds(is_so, line)?;
    }
    holds(
        filters.plugins().len() == FILTERS.lines().count().saturating_add(STANDARD_FILTERS),
        "as many filters as rows and standard filters",
    )
}

#[test]
fn tags_and_blocks_describe_themselves(rt: HostRuntime) -> Result<(), Fail> {
    let alloc = rt.alloc();
    let tags = [
        JekyllTags::Include,
        JekyllTags::IncludeCached,
        JekyllTags::IncludeRelative,
        JekyllTags::Seo,
    ];
    for (line, tag) in TAGS.lines().zip(tags) {
        holds(tag_holds(alloc, &tag, line), line)?;
    }
    let links = [
        JekyllLinks::Link,
        JekyllLinks::PostUrl,
        JekyllLinks::FeedMeta,
    ];
    for (line, link) in LINKS.lines().zip(links) {
        holds(tag_holds(alloc, &link, line), line)?;
    }
    holds(block_holds(alloc, &JekyllBlocks::Highlight, BLOCK), BLOCK)
}
