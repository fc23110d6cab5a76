//! What the standard filters, tags and blocks say about themselves.
use descriptions::{block_holds, filter_holds, tag_holds};
use liquid_core::NoPlugin;
use liquid_core::parser::PluginRegistry;
use liquid_filters::filters;
use liquid_std::language;
use rows::holds;
use std::test::Fail;

/// The name of each filter, what it does, its parameters by position and those by keyword.
const FILTERS: &str = r#"["abs", "Removes the sign of a number.", "", ""]
["append", "Appends a string.", "text (needed): The other string.", ""]
["at_least", "Returns the greater of two numbers.", "number (needed): The other number.", ""]
["at_most", "Returns the lesser of two numbers.", "number (needed): The other number.", ""]
["base64_decode", "Decodes base64.", "", ""]
["base64_encode", "Encodes as base64.", "", ""]
["base64_url_safe_decode", "Decodes base64 of a URL.", "", ""]
["base64_url_safe_encode", "Encodes as base64 for a URL.", "", ""]
["capitalize", "Converts the first character to upper case, and the others to lower case.", "", ""]
["ceil", "Rounds up to an integer.", "", ""]
["compact", "Removes the items that are nil.", "property (optional): The name of a property to go by.", ""]
["concat", "Appends the items of an array.", "array (needed): The other items.", ""]
["date", "Formats a date or a date time by a pattern.", "pattern (needed): What is printed, with directives for the parts of the date.", ""]
["decimal", "Writes a number with a fixed number of digits after the point.", "digits (needed): How many digits are written after the point.; point (optional): What is put before those digits, or a point.; group (optional): What is put between each three digits before the point, or nothing.", ""]
["default", "Replaces an input that is nil, false or empty.", "value (optional): What is returned in place of the input.", "allow_false (optional): Whether false is kept."]
["divided_by", "Divides by a number. The quotient of integers is rounded down.", "number (needed): The other number.; digits (optional): How many digits the quotient has after the point.", ""]
["downcase", "Converts to lower case.", "", ""]
["escape", "Escapes the special characters of HTML.", "", ""]
["escape_once", "Escapes the special characters of HTML, but keeps entities.", "", ""]
["find", "Returns the first item with a property.", "property (needed): The name of the property.; value (optional): What it has to be, or anything that counts as true.", ""]
["find_index", "Returns the index of the first item with a property.", "property (needed): The name of the property.; value (optional): What it has to be, or anything that counts as true.", ""]
["first", "Returns the first item.", "", ""]
["floor", "Rounds down to an integer.", "", ""]
["from_minor", "Converts cents, or another smaller unit, to the larger unit.", "digits (needed): How many digits the larger unit has after the point.", ""]
["h", "Escapes the special characters of HTML.", "", ""]
["has", "Tests whether an item has a property.", "property (needed): The name of the property.; value (optional): What it has to be, or anything that counts as true.", ""]
["join", "Joins the items to a string.", "separator (optional): What is put between them, or a space.", ""]
["json", "Converts the input to JSON.", "", ""]
["last", "Returns the last item.", "", ""]
["lstrip", "Removes whitespace at the start.", "", ""]
["map", "Returns a property of each item.", "property (needed): The name of the property.", ""]
["minus", "Subtracts a number.", "number (needed): The other number.", ""]
["modulo", "Returns the remainder of a division.", "number (needed): The other number.", ""]
["newline_to_br", "Inserts a line break of HTML before each line feed.", "", ""]
["plus", "Adds a number.", "number (needed): The other number.", ""]
["prepend", "Prepends a string.", "text (needed): The other string.", ""]
["reject", "Removes the items with a property.", "property (needed): The name of the property.; value (optional): What it has to be, or anything that counts as true.", ""]
["remove", "Removes each occurrence of a string.", "text (needed): The other string.", ""]
["remove_first", "Removes the first occurrence of a string.", "text (needed): The other string.", ""]
["remove_last", "Removes the last occurrence of a string.", "text (needed): The other string.", ""]
["replace", "Replaces each occurrence of a string.", "search (needed): What is replaced.; replacement (optional): What is put in its place, or nothing.", ""]
["replace_first", "Replaces the first occurrence of a string.", "search (needed): What is replaced.; replacement (optional): What is put in its place, or nothing.", ""]
["replace_last", "Replaces the last occurrence of a string.", "search (needed): What is replaced.; replacement (needed): What is put in its place.", ""]
["reverse", "Reverses the items.", "", ""]
["round", "Rounds to a number of digits after the point.", "digits (optional): How many digits are kept after the point: -2 gives hundreds.", ""]
["rstrip", "Removes whitespace at the end.", "", ""]
["size", "Counts the entries or characters.", "", ""]
["slice", "Returns some of the characters or items.", "start (needed): The position of the first one, from the end if it is negative.; length (optional): How many are returned, or one.", ""]
["sort", "Sorts the items.", "property (optional): The name of a property to go by.", ""]
["sort_natural", "Sorts the items, ignoring case.", "property (optional): The name of a property to go by.", ""]
["sort_numeric", "Sorts the items by their numbers.", "property (optional): The name of a property to go by.", ""]
["split", "Splits at each occurrence of a string.", "text (needed): The other string.", ""]
["strip", "Removes whitespace at both ends.", "", ""]
["strip_html", "Removes the tags of HTML.", "", ""]
["strip_newlines", "Removes line ends.", "", ""]
["sum", "Adds up the items.", "property (optional): The name of a property to go by.", ""]
["times", "Multiplies by a number.", "number (needed): The other number.", ""]
["to_minor", "Converts to cents, or to another smaller unit.", "digits (needed): How many digits the larger unit has after the point.", ""]
["truncate", "Truncates to a number of characters.", "length (optional): How many are kept at most.; ellipsis (optional): What is appended if some are left out, or three dots.", ""]
["truncatewords", "Truncates to a number of words.", "length (optional): How many are kept at most.; ellipsis (optional): What is appended if some are left out, or three dots.", ""]
["uniq", "Removes repeated items.", "property (optional): The name of a property to go by.", ""]
["upcase", "Converts to upper case.", "", ""]
["url_decode", "Decodes a string of a URL.", "", ""]
["url_encode", "Encodes for a URL.", "", ""]
["where", "Keeps the items with a property.", "property (needed): The name of the property.; value (optional): What it has to be, or anything that counts as true.", ""]"#;

/// The name of each tag, and its description.
const TAGS: &str = r#"["assign", "Assigns what a chain comes to, and writes nothing."]
["break", "Leaves the loop around it."]
["continue", "Goes on with the next item of the loop around it."]
["cycle", "Writes the values of a group, one after another."]
["decrement", "Sets a counter one lower, and writes its number."]
["echo", "Writes what a chain comes to."]
["include", "Renders a partial, which sees the names around it."]
["increment", "Writes the number of a counter, and sets it one higher."]
["render", "Renders a partial, which sees the names that it is given alone."]"#;

/// The start and the end of each block, and its description.
const BLOCKS: &str = r#"["capture", "endcapture", "Assigns the text of its part to a name."]
["case", "endcase", "Renders the part of the first when that has an equal value."]
["comment", "endcomment", "Writes nothing."]
["for", "endfor", "Renders its body for each item of an array, an object or a range."]
["if", "endif", "Renders the part after the first condition that holds."]
["ifchanged", "endifchanged", "Renders its part, unless its text is that of the last ifchanged."]
["raw", "endraw", "Writes its body as it stands."]
["tablerow", "endtablerow", "Renders its body in a cell of a table for each item."]
["unless", "endunless", "Renders its first part if its condition does not hold, else as an if does."]"#;

#[test]
fn filters_describe_themselves(rt: HostRuntime) -> Result<(), Fail> {
    let alloc = rt.alloc();
    let filters = filters(alloc, None)?;
    for (filter, line) in filters.plugins().zip(FILTERS.lines()) {
        holds(filter_holds(alloc, filter, line), line)?;
    }
    holds(
        filters.plugins().len() == FILTERS.lines().count(),
        "as many filters as rows",
    )
}

#[test]
fn tags_and_blocks_describe_themselves(rt: HostRuntime) -> Result<(), Fail> {
    let alloc = rt.alloc();
    let filters: PluginRegistry<NoPlugin> = PluginRegistry::new(alloc);
    let language = language(alloc, filters)?;
    for (tag, line) in language.tags.plugins().zip(TAGS.lines()) {
        holds(tag_holds(alloc, tag, line), line)?;
    }
    for (block, line) in language.blocks.plugins().zip(BLOCKS.lines()) {
        holds(block_holds(alloc, block, line), line)?;
    }
    holds(
        language.tags.plugins().len() == TAGS.lines().count(),
        "as many tags as rows",
    )?;
    holds(
        language.blocks.plugins().len() == BLOCKS.lines().count(),
        "as many blocks as rows",
    )
}
