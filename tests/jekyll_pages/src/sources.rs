//! A source of rewritten texts.
use jekyll_source::JekyllSource;
use liquid_error::Error;
use liquid_partials::{InMemorySource, PartialSource};
use rows::{holds, is_text};
use std::alloc::{AllocError, Global};
use std::test::Fail;

/// Returns a source of two texts, rewritten.
fn two_texts(alloc: Global) -> Result<JekyllSource<InMemorySource>, AllocError> {
    let mut texts = InMemorySource::new(alloc);
    texts.add(
        String::from_str(alloc, "b.html")?,
        String::from_str(alloc, "{{ x }}")?,
    )?;
    texts.add(
        String::from_str(alloc, "a.html")?,
        String::from_str(alloc, "[{% include b.html %}]")?,
    )?;
    Ok(JekyllSource::new(texts))
}

/// Returns `true` if the source has the names of the other one, and each text rewritten.
fn is_rewritten(alloc: Global) -> Result<bool, Error> {
    let source = two_texts(alloc)?;
    let names = source.names(alloc)?.join(alloc, ", ")?;
    let inner = source.get(alloc, "a.html")?;
    let plain = source.get(alloc, "b.html")?;
    let unknown = source.try_get(alloc, "c.html")?;
    Ok(
        names.as_str() == "a.html, b.html"
            && inner.as_str() == "[{%include \"b.html\"%}]"
            && plain.as_str() == "{{ x }}"
            && unknown.is_none()
            && source.contains("a.html")
            && !source.contains("c.html"),
    )
}

/// Returns `true` if the error for an unknown name has the names of the source.
fn unknown_is_refused(alloc: Global) -> Result<bool, Error> {
    let source = two_texts(alloc)?;
    match source.get(alloc, "c.html") {
        Ok(_) => Ok(false),
        Err(error) => Ok(is_text(
            error.to_string(alloc),
            "liquid: Unknown partial-template\n  with:\n    requested partial=c.html\n    available partials=a.html, b.html\n",
        )),
    }
}

#[test]
fn sources_are_rewritten(rt: HostRuntime) -> Result<(), Fail> {
    let rewritten = is_rewritten(rt.alloc());
    holds(matches!(rewritten, Ok(true)), "each text is rewritten")
}

#[test]
fn unknown_names_are_refused(rt: HostRuntime) -> Result<(), Fail> {
    let refused = unknown_is_refused(rt.alloc());
    holds(matches!(refused, Ok(true)), "the error has the names")
}
