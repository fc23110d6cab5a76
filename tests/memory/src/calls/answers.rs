//! The results of calls, and their texts.
use crate::problem::Problem;
use liquid_core::error::{Cause, CloneableError};
use liquid_core::model::{Path, Value, ValueCow, ValueSource};
use liquid_core::parser::{FilterChain, Language, PluginRegistry};
use liquid_core::runtime::{Expression, Variable};
use liquid_core::{DateError, DateFormatError, Error};
use serde_json::Value as Json;
use std::alloc::{AllocError, AllocFailed, Global};
use std::borrow::CowStr;
use std::collections::BTreeSet;
use test_plugins::filters::AnyFilter;
use test_plugins::{Blocks, Filters, Tags};

/// The result of a call.
#[derive(Drop)]
pub enum Answer<'g> {
    /// The call was out of memory.
    Memory,
    /// The call did what it does, and has no other result.
    Done,
    /// There is nothing.
    Nothing,
    Truth(bool),
    Refused(Error),
    Text(String),
    Shown(CowStr<'g>),
    Value(Value),
    Found(ValueCow<'g>),
    Path(Path<'g>),
    Names(BTreeSet<String>),
    Listed(Vec<&'g str>),
    Json(Json),
    Cause(Cause),
    Kept(CloneableError),
    Expression(Expression),
    Variable(Variable),
    Chain(FilterChain<AnyFilter>),
    Registry(PluginRegistry<Filters>),
    Language(Language<Filters, Tags, Blocks>),
}

impl<'g> From<Error> for Answer<'g> {
    fn from(error: Error) -> Answer<'g> {
        match error {
            Error::Memory => Answer::Memory,
            error => Answer::Refused(error),
        }
    }
}

impl<'g> From<AllocError> for Answer<'g> {
    fn from(_: AllocError) -> Answer<'g> {
        Answer::Memory
    }
}

impl<'g, T: Drop> From<AllocFailed<T>> for Answer<'g> {
    fn from(failed: AllocFailed<T>) -> Answer<'g> {
        drop(failed);
        Answer::Memory
    }
}

impl<'g> From<DateError> for Answer<'g> {
    fn from(error: DateError) -> Answer<'g> {
        match error {
            DateError::Memory => Answer::Memory,
            _ => Answer::Nothing,
        }
    }
}

impl<'g> From<DateFormatError> for Answer<'g> {
    fn from(error: DateFormatError) -> Answer<'g> {
        match error {
            DateFormatError::Memory => Answer::Memory,
            _ => Answer::Nothing,
        }
    }
}

/// A result on either side: the calls of a group use `?` on their results.
pub type Answered<'g> = Result<Answer<'g>, Answer<'g>>;

fn listed(alloc: Global, names: &Vec<&str>) -> Result<String, AllocError> {
    names.join(alloc, " ")
}

/// Adds names, each with a blank after it, to a text.
fn add_each(all: &mut String, names: &BTreeSet<String>) -> Result<(), AllocError> {
    for name in names {
        write!(all, "{name} ")?;
    }
    Ok(())
}

fn joined(alloc: Global, names: &BTreeSet<String>) -> Result<String, AllocError> {
    let mut all = String::new(alloc);
    add_each(&mut all, names)?;
    Ok(all)
}

/// Adds the names of a registry, each with a blank after it, to a text.
pub fn add_names(all: &mut String, registry: &PluginRegistry<Filters>) -> Result<(), AllocError> {
    for name in registry.plugin_names() {
        write!(all, "{name} ")?;
    }
    Ok(())
}

fn registered(alloc: Global, registry: &PluginRegistry<Filters>) -> Result<String, AllocError> {
    let mut all = String::new(alloc);
    add_names(&mut all, registry)?;
    Ok(all)
}

/// Returns the text of a result that is a part of a template or of a language.
fn part_shown(alloc: Global, answer: &Answer<'_>) -> Result<String, AllocError> {
    match answer {
        Answer::Expression(expression) => expression.to_string(alloc),
        Answer::Variable(variable) => variable.to_string(alloc),
        Answer::Chain(chain) => chain.to_string(alloc),
        Answer::Registry(registry) => registered(alloc, registry),
        Answer::Language(language) => registered(alloc, &language.filters),
        _ => Ok(String::new(alloc)),
    }
}

/// Returns the text of a result that is an error, names or a part.
fn other_shown(alloc: Global, answer: &Answer<'_>) -> Result<String, AllocError> {
    match answer {
        Answer::Cause(cause) => cause.to_string(alloc),
        Answer::Kept(kept) => kept.to_string(alloc),
        Answer::Refused(error) => error.to_string(alloc),
        Answer::Names(names) => joined(alloc, names),
        Answer::Listed(names) => listed(alloc, names),
        part => part_shown(alloc, part),
    }
}

/// Returns the text of a result that is a value, a path or JSON, or another part.
fn value_shown(alloc: Global, answer: &Answer<'_>) -> Result<String, AllocError> {
    match answer {
        Answer::Value(value) => ValueSource::new(value).to_string(alloc),
        Answer::Found(value) => ValueSource::new(value.as_view()).to_string(alloc),
        Answer::Path(path) => path.to_string(alloc),
        Answer::Json(json) => json.to_string(alloc),
        other => other_shown(alloc, other),
    }
}

/// Returns the text of a result with memory.
fn text_of(alloc: Global, answer: &Answer<'_>) -> Result<String, AllocError> {
    match answer {
        Answer::Done => String::from_str(alloc, "done"),
        Answer::Nothing => String::from_str(alloc, "nothing"),
        Answer::Truth(truth) => truth.to_string(alloc),
        Answer::Text(text) => text.clone(),
        Answer::Shown(text) => String::from_str(alloc, text.as_str()),
        value => value_shown(alloc, value),
    }
}

/// Returns the result's text, or `None` if it is out of memory.
pub fn shown(alloc: Global, answer: &Answer<'_>) -> Result<Option<String>, Problem> {
    match answer {
        Answer::Memory => Ok(None),
        answer => Ok(Some(text_of(alloc, answer)?)),
    }
}
