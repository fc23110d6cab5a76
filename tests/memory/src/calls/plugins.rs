//! Calls of registries, expressions and chains.
use crate::calls::answers::{Answer, Answered};
use crate::calls::given::{Given, Ways};
use liquid_core::call_filter;
use liquid_core::model::{Value, ValueCow};
use liquid_core::parser::{FilterArguments, FilterChain, Language, PluginRegistry, parse_variable};
use liquid_core::runtime::{Expression, Runtime, Variable};
use std::alloc::Global;
use test_plugins::Filters;
use test_plugins::filters::AnyFilter;

/// Calls a filter that fails.
fn called<'g>(alloc: Global) -> Answered<'g> {
    let arguments = FilterArguments {
        positional: Vec::new(alloc),
        keyword: Vec::new(alloc),
    };
    let input = ValueCow::Owned(Value::Nil);
    let called = call_filter(alloc, &Filters::Fail, &input, arguments);
    drop(input);
    Ok(Answer::Value(called?))
}

/// Makes the calls of registries and filters.
fn of_filters<'g>(alloc: Global, word: &str, given: &'g mut Given) -> Answered<'g> {
    match word {
        "register" => {
            let filters = &mut given.engine.language.filters;
            Ok(Answer::Truth(PluginRegistry::register(filters, "more", Filters::Fail)?))
        }
        "clone_registry" => {
            let filters = &given.engine.language.filters;
            Ok(Answer::Registry(PluginRegistry::clone(filters)?))
        }
        "clone_language" => Ok(Answer::Language(Language::clone(&given.engine.language)?)),
        _ => called(alloc),
    }
}

/// Makes the calls that evaluate a variable, an expression or a chain over a runtime.
fn of_values<'g, R: Runtime>(
    alloc: Global,
    word: &str,
    given: &'g Given,
    runtime: &'g R,
) -> Answered<'g> {
    let (ways, chain) = (&given.ways, &given.engine.chain);
    match word {
        "evaluate" => { Ok(Answer::Found(Expression::evaluate(&ways.expression, alloc, runtime)?)) }
        "chain_evaluate" => Ok(Answer::Found(FilterChain::evaluate(chain, alloc, runtime)?)),
        _ => Ok(Answer::Path(Variable::evaluate(&ways.variable, alloc, runtime)?)),
    }
}

/// Makes the calls that try to evaluate a variable or an expression over a runtime.
fn of_tries<'g, R: Runtime>(
    alloc: Global,
    word: &str,
    ways: &'g Ways,
    runtime: &'g R,
) -> Answered<'g> {
    match word {
        "try_evaluate" => match Expression::try_evaluate(&ways.expression, alloc, runtime)? {
            Some(value) => Ok(Answer::Found(value)),
            None => Ok(Answer::Nothing),
        },
        _ => match Variable::try_evaluate(&ways.variable, alloc, runtime)? {
            Some(path) => Ok(Answer::Path(path)),
            None => Ok(Answer::Nothing),
        },
    }
}

/// Makes a path of a name and a number.
fn pushed<'g>(alloc: Global) -> Answered<'g> {
    let variable = parse_variable(alloc, "a")?;
    Ok(Answer::Variable(Variable::push_literal(variable, 1i64)?))
}

/// Makes the calls that copy a variable, an expression or a chain, or make one.
fn of_parts<'g>(alloc: Global, word: &str, given: &'g Given) -> Answered<'g> {
    match word {
        "clone_variable" => Ok(Answer::Variable(Variable::clone(&given.ways.variable)?)),
        "clone_expression" => Ok(Answer::Expression(Expression::clone(&given.ways.expression)?)),
        "of_name" => Ok(Answer::Chain(FilterChain::<AnyFilter>::of_name(alloc, "a")?)),
        _ => pushed(alloc),
    }
}

/// Extends a variable.
fn extended<'g>(alloc: Global, given: &'g mut Given) -> Answered<'g> {
    let expressions = std::mem::replace(&mut given.added.expressions, Vec::new(alloc));
    given.ways.variable.extend(expressions)?;
    Ok(Answer::Done)
}

/// Makes a call of registries, expressions and chains.
pub fn call<'g>(alloc: Global, word: &str, given: &'g mut Given) -> Answered<'g> {
    match word {
        "register" | "clone_registry" | "clone_language" | "call_filter" => {
            of_filters(alloc, word, given)
        }
        "evaluate" | "chain_evaluate" | "variable_evaluate" => {
            of_values(alloc, word, &*given, &given.engine.runtime)
        }
        "try_evaluate" | "variable_try_evaluate" => {
            of_tries(alloc, word, &given.ways, &given.engine.runtime)
        }
        "variable_extend" => extended(alloc, given),
        _ => of_parts(alloc, word, given),
    }
}
