//! The texts of what calls may change.
use crate::calls::answers::add_names;
use crate::calls::given::{Engine, Given, Values, Ways};
use crate::problem::Problem;
use liquid_core::model::{Object, Value, ValueSource};
use liquid_core::runtime::{Runtime, Seen};
use std::alloc::{AllocError, Global};
use std::fmt::Display;

impl Given {
    /// Returns the text of all that a call may change.
    pub fn shown(&self, alloc: Global) -> Result<String, Problem> {
        let mut all = String::new(alloc);
        self.add_shown(&mut all)?;
        Ok(all)
    }

    /// Adds the text of all that a call may change to another text.
    fn add_shown(&self, all: &mut String) -> Result<(), AllocError> {
        add_ways(all, &self.ways)?;
        add_values(all, &self.values)?;
        add_engine(all, &self.engine)
    }
}

/// Adds a text that is displayed, and a bar after it, to another text.
fn add<D: Display>(all: &mut String, displayed: &D) -> Result<(), AllocError> {
    write!(all, "{displayed}|")
}

/// Adds the texts of a path and a variable to another text.
fn add_ways(all: &mut String, ways: &Ways) -> Result<(), AllocError> {
    add(all, &ways.path)?;
    add(all, &ways.variable)
}

/// Adds the text of a list and the names of an object to another text.
fn add_values(all: &mut String, values: &Values) -> Result<(), AllocError> {
    add(all, &ValueSource::new(&values.value))?;
    add_members(all, &values.object)?;
    all.push_str("|")
}

/// Adds the text of a chain, the names of the filters, and what a runtime has to another text.
fn add_engine(all: &mut String, engine: &Engine) -> Result<(), AllocError> {
    add(all, &engine.chain)?;
    add_names(all, &engine.language.filters)?;
    all.push_str("|")?;
    add_runtime(all, &engine.runtime)
}

/// Returns the text of what a call extends.
pub fn extended(alloc: Global, given: &Given, word: &str) -> Result<String, Problem> {
    Ok(extended_text(alloc, given, word)?)
}

/// Returns the text of what a call extends, or that memory ran out.
fn extended_text(alloc: Global, given: &Given, word: &str) -> Result<String, AllocError> {
    match word {
        "extend" => given.ways.path.to_string(alloc),
        "variable_extend" => given.ways.variable.to_string(alloc),
        "object_extend" => members_of(alloc, &given.values.object),
        _ => ValueSource::new(&given.values.value).to_string(alloc),
    }
}

/// Returns the names of an object, with the source of each value.
fn members_of(alloc: Global, object: &Object) -> Result<String, AllocError> {
    let mut all = String::new(alloc);
    add_members(&mut all, object)?;
    Ok(all)
}

/// Adds the names of an object, with the source of each value, to a text.
fn add_members(all: &mut String, object: &Object) -> Result<(), AllocError> {
    for (name, value) in object {
        all.push_str(name.as_str())?;
        add_source(all, value)?;
    }
    Ok(())
}

/// Adds the source of a value to a text.
fn add_source(all: &mut String, value: &Value) -> Result<(), AllocError> {
    write!(all, "{}", ValueSource::new(value))
}

/// Adds what names have a value, and which index variables, to a text.
fn add_runtime<R: Runtime>(all: &mut String, runtime: &R) -> Result<(), AllocError> {
    for name in ["a", "i", "n", "own"] {
        if let Some(Seen::Lent(value)) = runtime.try_get_name(name) {
            add_source(all, value)?;
        }
    }
    if runtime.get_index("n").is_some() {
        all.push_str("+")?;
    }
    Ok(())
}
