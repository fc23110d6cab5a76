//! What the calls are made with.
use crate::built::{Built, built};
use crate::problem::{Problem, both};
use liquid_core::Error;
use liquid_core::error::{Cause, CauseOf, CloneableError};
use liquid_core::model::{DateTime, Object, Path, ScalarCow, Value, to_object};
use liquid_core::parser::{FilterArguments, FilterChain, Language, ParseFilter, parse_variable};
use liquid_core::runtime::{Expression, Variable};
use serde_json::Value as Json;
use std::alloc::{AllocError, Global};
use test_plugins::filters::AnyFilter;
use test_plugins::languages::language;
use test_plugins::{Blocks, Filters, Tags};

/// An error, a cause and an error that is kept. Calls take the error and the cause whole.
#[derive(Drop)]
pub struct Errors {
    pub error: Error,
    pub cause: Cause,
    pub kept: CloneableError,
}

/// What calls take whole or copy: a name, a member and a date-time.
#[derive(Drop)]
pub struct Alone {
    pub text: String,
    pub member: Value,
    pub moment: DateTime,
}

/// The globals as JSON and as an object, and a list. Calls take the JSON whole.
#[derive(Drop)]
pub struct Values {
    pub json: Json,
    pub object: Object,
    pub value: Value,
}

/// What leads to data: a path, and a variable by itself and as an expression.
#[derive(Drop)]
pub struct Ways {
    pub path: Path<'static>,
    pub variable: Variable,
    pub expression: Expression,
}

/// What calls put into an object, an array, a path and a variable.
#[derive(Drop)]
pub struct Added {
    pub pairs: Vec<(String, Value)>,
    pub items: Vec<Value>,
    pub indexes: Vec<ScalarCow<'static>>,
    pub expressions: Vec<Expression>,
}

/// What renders.
#[derive(Drop)]
pub struct Engine {
    pub chain: FilterChain<AnyFilter>,
    pub language: Language<Filters, Tags, Blocks>,
    pub runtime: Built,
}

/// What all calls are made with.
#[derive(Drop)]
pub struct Given {
    pub errors: Errors,
    pub alone: Alone,
    pub values: Values,
    pub ways: Ways,
    pub added: Added,
    pub engine: Engine,
}

/// The object of all globals.
pub const GLOBALS: &str = r#"{"a": {"b": [1, "two"]}, "i": "b"}"#;

pub fn text(alloc: Global, text: &str) -> Result<String, Problem> {
    Ok(String::from_str(alloc, text)?)
}

pub fn object(alloc: Global) -> Result<Object, Problem> {
    let json = json(alloc, GLOBALS)?;
    let object = to_object(alloc, &json);
    drop(json);
    Ok(object?)
}

pub fn runtime(alloc: Global) -> Result<Built, Problem> {
    Ok(built(alloc, object(alloc)?))
}

fn error(alloc: Global) -> Result<Error, Problem> {
    match Error::with_msg(alloc, "a") {
        Error::Memory => Err(Problem::Refused),
        error => Ok(error),
    }
}

/// Returns a list of one item.
fn list<T: Drop>(alloc: Global, item: T) -> Result<Vec<T>, Problem> {
    let mut items = Vec::new(alloc);
    items.push(item)?;
    Ok(items)
}

/// Returns a filter with an argument.
fn filter(alloc: Global) -> Result<AnyFilter, Problem> {
    let argument = Expression::with_literal(text(alloc, "!")?);
    let arguments = FilterArguments {
        positional: list(alloc, argument)?,
        keyword: Vec::new(alloc),
    };
    Ok(Filters::Append.parse(alloc, arguments)?)
}

fn filters(alloc: Global) -> Result<Vec<AnyFilter>, Problem> {
    list(alloc, filter(alloc)?)
}

fn variable(alloc: Global, text: &str) -> Result<Variable, Problem> {
    Ok(parse_variable(alloc, text)?)
}

/// Returns a chain of a name and a filter with an argument.
fn chain(alloc: Global) -> Result<FilterChain<AnyFilter>, Problem> {
    let (filters, entry) = both(filters(alloc), variable(alloc, "a.b"))?;
    Ok(FilterChain::new(Expression::Variable(entry), filters))
}

fn add_pair(alloc: Global, pairs: &mut Vec<(String, Value)>, name: &str) -> Result<(), AllocError> {
    let name = String::from_str(alloc, name)?;
    pairs.push((name, Value::scalar(1i64)))?;
    Ok(())
}

fn pairs(alloc: Global) -> Result<Vec<(String, Value)>, Problem> {
    let mut pairs = Vec::new(alloc);
    for name in ["x", "y", "z"] {
        add_pair(alloc, &mut pairs, name)?;
    }
    Ok(pairs)
}

fn items(alloc: Global) -> Result<Vec<Value>, Problem> {
    let mut items = Vec::new(alloc);
    for number in 5i64..12 {
        items.push(Value::scalar(number))?;
    }
    Ok(items)
}

fn indexes(alloc: Global) -> Result<Vec<ScalarCow<'static>>, Problem> {
    let mut indexes = Vec::new(alloc);
    for name in ["c", "d", "e", "f", "g"] {
        indexes.push(ScalarCow::from(name))?;
    }
    Ok(indexes)
}

fn expressions(alloc: Global) -> Result<Vec<Expression>, Problem> {
    let mut expressions = Vec::new(alloc);
    for number in 1i64..6 {
        expressions.push(Expression::with_literal(number))?;
    }
    Ok(expressions)
}

fn cause(alloc: Global) -> Result<Cause, Problem> {
    Ok(CauseOf::Error(Box::new(alloc, error(alloc)?)?))
}

fn kept(alloc: Global) -> Result<CloneableError, Problem> {
    Ok(CloneableError::new(alloc, error(alloc)?)?)
}

fn json(alloc: Global, text: &str) -> Result<Json, Problem> {
    Ok(Json::from_str(alloc, text)?)
}

/// Returns a list as a value.
fn value(alloc: Global) -> Result<Value, Problem> {
    let array = json(alloc, r#"[1, "two", {"k": "v"}]"#)?;
    let value = liquid_core::to_value(alloc, &array);
    drop(array);
    Ok(value?)
}

fn path(alloc: Global) -> Result<Path<'static>, Problem> {
    let mut path = Path::with_index(alloc, "a")?;
    match path.push("b") {
        Ok(()) => Ok(path),
        Err(error) => {
            drop(path);
            Err(Problem::from(error))
        }
    }
}

fn member(alloc: Global) -> Result<Value, Problem> {
    Ok(Value::scalar(text(alloc, "m")?))
}

fn the_language(alloc: Global) -> Result<Language<Filters, Tags, Blocks>, Problem> {
    Ok(language(alloc)?)
}

impl Errors {
    fn new(alloc: Global) -> Result<Errors, Problem> {
        let causes = both(cause(alloc), kept(alloc));
        let (error, (cause, kept)) = both(error(alloc), causes)?;
        Ok(Errors { error, cause, kept })
    }
}

impl Alone {
    fn new(alloc: Global) -> Result<Alone, Problem> {
        let moment = DateTime::from_ymd(2016, 2, 16)?;
        let (text, member) = both(text(alloc, "n"), member(alloc))?;
        Ok(Alone {
            text,
            member,
            moment,
        })
    }
}

impl Values {
    fn new(alloc: Global) -> Result<Values, Problem> {
        let parts = both(object(alloc), value(alloc));
        let (json, (object, value)) = both(json(alloc, GLOBALS), parts)?;
        Ok(Values {
            json,
            object,
            value,
        })
    }
}

impl Ways {
    fn new(alloc: Global) -> Result<Ways, Problem> {
        let variables = both(variable(alloc, "a[i]"), variable(alloc, "a[i]"));
        let (path, (variable, other)) = both(path(alloc), variables)?;
        Ok(Ways {
            path,
            variable,
            expression: Expression::Variable(other),
        })
    }
}

impl Added {
    fn new(alloc: Global) -> Result<Added, Problem> {
        let members = both(pairs(alloc), items(alloc));
        let steps = both(indexes(alloc), expressions(alloc));
        let ((pairs, items), (indexes, expressions)) = both(members, steps)?;
        Ok(Added {
            pairs,
            items,
            indexes,
            expressions,
        })
    }
}

impl Engine {
    fn new(alloc: Global) -> Result<Engine, Problem> {
        let parts = both(the_language(alloc), runtime(alloc));
        let (chain, (language, runtime)) = both(chain(alloc), parts)?;
        Ok(Engine {
            chain,
            language,
            runtime,
        })
    }
}

/// What calls are given besides the engine, in pairs.
type Parts = ((Errors, Alone), (Values, (Ways, Added)));

fn parts(alloc: Global) -> Result<Parts, Problem> {
    let alone = both(Errors::new(alloc), Alone::new(alloc));
    let ways = both(Ways::new(alloc), Added::new(alloc));
    both(alone, both(Values::new(alloc), ways))
}

/// Makes a part again.
fn renew<T: Drop>(part: &mut T, made: Result<T, Problem>) -> Result<(), Problem> {
    let old = std::mem::replace(part, made?);
    drop(old);
    Ok(())
}

impl Given {
    /// Makes each part by its own function.
    pub fn new(alloc: Global) -> Result<Given, Problem> {
        let (parts, engine) = both(parts(alloc), Engine::new(alloc))?;
        let ((errors, alone), (values, (ways, added))) = parts;
        Ok(Given {
            errors,
            alone,
            values,
            ways,
            added,
            engine,
        })
    }

    /// Makes again what calls take whole.
    pub fn refresh(&mut self, alloc: Global) -> Result<(), Problem> {
        renew(&mut self.errors, Errors::new(alloc))?;
        renew(&mut self.alone, Alone::new(alloc))?;
        renew(&mut self.values.json, json(alloc, GLOBALS))
    }
}
