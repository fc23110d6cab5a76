//! Names, frames and registers over a runtime.
use crate::names::names::{frame_holds, hides_a, is_name};
use crate::names::values::{numbers, text};
use liquid_error::Error;
use liquid_runtime::{
    BuiltRuntime, Interrupt, Runtime, RuntimeBuilder, RuntimeCore, SandboxedStackFrame, StackFrame,
};
use liquid_value::{Object, Value};
use rows::{holds, is_text};
use std::alloc::{AllocError, Global};
use std::test::Fail;
use test_plugins::Visits;

fn built(
    alloc: Global,
    globals: &[(&'static str, i64)],
    lenient: bool,
) -> Result<BuiltRuntime<Visits, ()>, AllocError> {
    Ok(
        RuntimeBuilder::new(alloc)
            .set_globals(numbers(alloc, globals)?)
            .set_lenient(lenient)
            .build(),
    )
}

/// Returns `true` if a frame with these names over a sandbox shows and hides names.
fn frame_over_holds<R: Runtime>(
    alloc: Global,
    sandbox: &mut R,
    names: Result<Object, AllocError>,
) -> bool {
    match names {
        Ok(names) => frame_holds(alloc, &StackFrame::new(sandbox, names)),
        Err(_) => false,
    }
}

/// Returns `true` if a sandbox, and a frame with `c` over it, show and hide names.
fn both_hold<R: Runtime>(alloc: Global, sandbox: &mut R) -> bool {
    hides_a(alloc, sandbox) && frame_over_holds(alloc, sandbox, numbers(alloc, &[("c", 3)]))
}

/// Returns `true` if a sandbox with `b` over a runtime, and a frame with `c` over that, show and hide names.
fn frames_hold<R: Runtime>(alloc: Global, runtime: &mut R) -> bool {
    match numbers(alloc, &[("b", 2)]) {
        Ok(names) => both_hold(alloc, &mut SandboxedStackFrame::new(runtime, names)),
        Err(_) => false,
    }
}

/// Returns `true` if frames over a runtime with `a` show and hide names, and `a` is seen again after them.
fn shows_a_again<R: Runtime>(alloc: Global, runtime: &mut R) -> bool {
    frames_hold(alloc, runtime) && is_name(alloc, &*runtime, "a", "1")
}

/// Returns `true` if frames show and hide names over a strict runtime, or over a lenient one.
fn shows_and_hides(alloc: Global, lenient: bool) -> bool {
    match built(alloc, &[("a", 1)], lenient) {
        Ok(mut runtime) => shows_a_again(alloc, &mut runtime),
        Err(_) => false,
    }
}

#[test]
fn frames_show_and_hide_names(rt: HostRuntime) -> Result<(), Fail> {
    let is_strict_so = shows_and_hides(rt.alloc(), false);
    holds(
        is_strict_so && shows_and_hides(rt.alloc(), true),
        "frames show and hide names",
    )
}

/// Sets a global to a number, and returns its old value.
fn set_number<R: Runtime>(
    alloc: Global,
    runtime: &mut R,
    name: &str,
    number: i64,
) -> Result<Option<Value>, Error> {
    runtime.set_global(text(alloc, name)?, Value::scalar(number))
}

/// Sets a global to a number, and returns `true` if its old value is this one.
fn replaces<R: Runtime>(
    alloc: Global,
    runtime: &mut R,
    name: &str,
    number: i64,
    old: Option<&Value>,
) -> bool {
    match set_number(alloc, runtime, name, number) {
        Ok(found) => found.as_ref() == old,
        Err(_) => false,
    }
}

/// Returns `true` if `test` has this number over the runtime.
fn is_test<R: Runtime>(alloc: Global, runtime: &R, number: &str) -> bool {
    is_name(alloc, runtime, "test", number)
}

/// Returns `true` if a frame with `test` hides the global of that name.
fn is_hidden<R: Runtime>(alloc: Global, runtime: &mut R) -> bool {
    match numbers(alloc, &[("test", 3)]) {
        Ok(names) => is_test(alloc, &StackFrame::new(runtime, names), "3"),
        Err(_) => false,
    }
}

/// Returns `true` if a frame hides a new global while it is open.
fn hides_a_global<R: Runtime>(alloc: Global, runtime: &mut R) -> bool {
    replaces(alloc, runtime, "test", 42, None)
        && is_hidden(alloc, runtime)
        && is_test(alloc, runtime, "42")
}

#[test]
fn a_frame_hides_a_global_while_it_is_open(rt: HostRuntime) -> Result<(), Fail> {
    let mut runtime = built(rt.alloc(), &[], false)?;
    let is_so = hides_a_global(rt.alloc(), &mut runtime);
    drop(runtime);
    holds(
        is_so,
        "a frame hides a global, which is seen again after it",
    )
}

/// Returns `true` if globals are set below the frame `page`, which hides `test`.
fn page_hides_global<R: Runtime>(alloc: Global, page: &mut R) -> bool {
    page.name() == Some("page")
        && is_test(alloc, page, "3")
        && replaces(alloc, page, "test", 43, Some(&Value::scalar(42i64)))
        && replaces(alloc, page, "global", 5, None)
        && is_test(alloc, page, "3")
}

/// Returns `true` if globals are set below a frame `page` with these names.
fn sets_below<R: Runtime>(
    alloc: Global,
    runtime: &mut R,
    names: Object,
    page: Result<String, AllocError>,
) -> bool {
    match page {
        Ok(page) => {
            page_hides_global(alloc, &mut StackFrame::new(runtime, names).with_name(page))
        }
        Err(_) => false,
    }
}

/// Returns `true` if globals are set below a frame `page` with `test`.
fn sets_below_page<R: Runtime>(alloc: Global, runtime: &mut R) -> bool {
    match numbers(alloc, &[("test", 3)]) {
        Ok(names) => sets_below(alloc, runtime, names, text(alloc, "page")),
        Err(_) => false,
    }
}

/// Returns `true` if globals that are set below a frame have their numbers after it, and the runtime has no name, and its
/// depth.
fn keeps_globals<R: Runtime>(alloc: Global, runtime: &mut R) -> bool {
    replaces(alloc, runtime, "test", 42, None)
        && sets_below_page(alloc, runtime)
        && is_test(alloc, runtime, "43")
        && is_name(alloc, runtime, "global", "5")
        && runtime.name().is_none()
        && runtime.depth() == 32
}

#[test]
fn a_global_is_set_below_a_frame(rt: HostRuntime) -> Result<(), Fail> {
    let mut runtime = built(rt.alloc(), &[], false)?;
    let is_so = keeps_globals(rt.alloc(), &mut runtime);
    drop(runtime);
    holds(is_so, "globals that are set below a frame are what was set")
}

/// Returns `true` if a sandbox has its own registers, which are then marked.
fn marks_its_own<R: Runtime<Register = Visits>>(sandbox: &mut R) -> bool {
    let is_fresh = !sandbox.registers().interrupt.interrupted()
        && sandbox.registers().value.count == 0;
    sandbox.registers_mut().value.count = 2;
    sandbox.registers_mut().interrupt.set(Interrupt::Continue);
    is_fresh
}

/// Sets an index variable to 1, and returns its old value.
fn set_one<R: Runtime>(alloc: Global, sandbox: &mut R) -> Result<Option<Value>, Error> {
    sandbox.set_index(text(alloc, "i")?, Value::scalar(1i64))
}

/// Returns `true` if an index variable is new.
fn is_new_index<R: Runtime>(alloc: Global, sandbox: &mut R) -> bool {
    match set_one(alloc, sandbox) {
        Ok(old) => old.is_none(),
        Err(_) => false,
    }
}

/// Returns `true` if a sandbox has its own registers, and sets an index variable that is new, is found by `get_index`, and
/// is not a name in a sandbox.
fn is_a_sandbox<R: Runtime<Register = Visits>>(alloc: Global, sandbox: &mut R) -> bool {
    marks_its_own(sandbox)
        && is_new_index(alloc, sandbox)
        && sandbox.get_index("i").is_some()
        && sandbox.try_get_name("i").is_none()
}

/// Returns `true` if a sandbox over a runtime is one.
fn sandbox_holds<R: Runtime<Register = Visits>>(alloc: Global, runtime: &mut R) -> bool {
    is_a_sandbox(
        alloc,
        &mut SandboxedStackFrame::new(runtime, Object::new(alloc)),
    )
}

/// Returns `true` if the registers are as they were before the sandbox: unmarked, with one interrupt.
fn keeps_registers<R: Runtime<Register = Visits>>(runtime: &mut R) -> bool {
    runtime.registers().value.count == 0
        && runtime.registers_mut().interrupt.reset() == Some(Interrupt::Break)
        && !runtime.registers().interrupt.interrupted()
}

/// Returns `true` if a runtime has an index variable that was set in a sandbox, and the registers, the depth and the
/// partials that it had before.
fn is_kept<R: Runtime<Register = Visits, Store = u8>>(runtime: &mut R) -> bool {
    runtime.try_get_name("i").is_some()
        && keeps_registers(runtime)
        && runtime.depth() == 3
        && runtime.partials() == Some(&mut 9)
}

#[test]
fn registers_and_index_variables(rt: HostRuntime) -> Result<(), Fail> {
    let mut runtime = RuntimeBuilder::<Visits, u8>::new(rt.alloc())
        .set_depth(3)
        .set_partials(9)
        .build();
    runtime.registers_mut().interrupt.set(Interrupt::Break);
    let is_sandbox = sandbox_holds(rt.alloc(), &mut runtime);
    let is_kept = is_kept(&mut runtime);
    drop(runtime);
    holds(
        is_sandbox && is_kept,
        "a sandbox has registers of its own, and the runtime keeps what it had",
    )
}

/// Returns `true` if a core fails to set a global, with the error of that.
fn sets_no_global(alloc: Global, core: &mut RuntimeCore<(), ()>, name: String) -> bool {
    match core.set_global(name, Value::Nil) {
        Ok(_) => false,
        Err(error) => is_text(error.to_string(alloc), "liquid: No global frame\n"),
    }
}

/// Returns `true` if a core fails to set an index variable, with the error of that.
fn sets_no_index(alloc: Global, core: &mut RuntimeCore<(), ()>, name: String) -> bool {
    match core.set_index(name, Value::Nil) {
        Ok(_) => false,
        Err(error) => is_text(error.to_string(alloc), "liquid: No index frame\n"),
    }
}

#[test]
fn a_core_sets_no_name(rt: HostRuntime) -> Result<(), Fail> {
    let alloc = rt.alloc();
    let mut core: RuntimeCore<(), ()> = RuntimeCore::new();
    let is_no_global = sets_no_global(alloc, &mut core, text(alloc, "a")?);
    let is_no_index = sets_no_index(alloc, &mut core, text(alloc, "a")?);
    holds(is_no_global && is_no_index, "a core sets no name")
}
