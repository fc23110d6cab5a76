//! Calls of values.
use crate::calls::answers::{Answer, Answered};
use crate::calls::given::Given;
use liquid_core::model::{Object, Scalar, ScalarCow, Value, ValueCow, array_of, object_of};
use liquid_core::{ObjectView, ValueView};
use std::alloc::{AllocError, Global};

/// Copies a scalar.
fn of_scalar<'g>(member: &Value) -> Answered<'g> {
    match member {
        Value::Scalar(scalar) => Ok(Answer::Value(Value::Scalar(Scalar::clone(scalar)?))),
        _ => Ok(Answer::Nothing),
    }
}

/// Returns the text of a number that stays.
fn of_number<'g>(alloc: Global, number: &ScalarCow<'_>) -> Answered<'g> {
    let text = ScalarCow::to_kstr(number, alloc)?;
    Ok(Answer::Text(String::from_str(alloc, text.as_str())?))
}

/// Makes the calls that take a number whole, or return its text and let it stay.
fn of_numbers<'g>(alloc: Global, word: &str, number: ScalarCow<'static>) -> Answered<'g> {
    match word {
        "into_string" => Ok(Answer::Text(ScalarCow::into_string(number, alloc)?)),
        "into_cow_str" => Ok(Answer::Shown(ScalarCow::into_cow_str(number, alloc)?)),
        _ => {
            let answered = of_number(alloc, &number);
            drop(number);
            answered
        }
    }
}

/// Makes the calls of scalars.
fn of_scalars<'g>(alloc: Global, word: &str, member: &Value) -> Answered<'g> {
    match word {
        "scalar_clone" => of_scalar(member),
        "scalar_into_owned" => {
            let owned = ScalarCow::into_owned(ScalarCow::from("seven"), alloc)?;
            Ok(Answer::Value(Value::Scalar(owned)))
        }
        _ => of_numbers(alloc, word, ScalarCow::from(7i64)),
    }
}

/// Returns the name that a call takes.
fn name(alloc: Global, given: &mut Given) -> String {
    std::mem::replace(&mut given.alone.text, String::new(alloc))
}

/// Returns the member that a call takes.
fn member(given: &mut Given) -> Value {
    std::mem::replace(&mut given.alone.member, Value::Nil)
}

/// Puts a member into an object.
fn inserted<'g>(alloc: Global, given: &'g mut Given) -> Answered<'g> {
    let (name, member) = (name(alloc, given), member(given));
    let old = Object::insert(&mut given.values.object, name, member)?;
    drop(old);
    Ok(Answer::Done)
}

/// Puts pairs into an object.
fn extended<'g>(alloc: Global, given: &'g mut Given) -> Answered<'g> {
    let pairs = std::mem::replace(&mut given.added.pairs, Vec::new(alloc));
    given.values.object.extend(pairs)?;
    Ok(Answer::Done)
}

/// Puts an item after the items of a value. Returns `false` if the value is not an array.
fn push(value: &mut Value, item: Value) -> Result<bool, AllocError> {
    let Some(array) = value.as_array_mut() else {
        drop(item);
        return Ok(false);
    };
    match array.to_mut() {
        Ok(items) => {
            items.push(item)?;
            Ok(true)
        }
        Err(error) => {
            drop(item);
            Err(error)
        }
    }
}

/// Puts an item after the items of an array.
fn pushed<'g>(given: &'g mut Given) -> Answered<'g> {
    let member = member(given);
    if push(&mut given.values.value, member)? {
        Ok(Answer::Done)
    } else {
        Ok(Answer::Nothing)
    }
}

/// Puts items after those of an array.
fn lengthened<'g>(alloc: Global, given: &'g mut Given) -> Answered<'g> {
    let items = std::mem::replace(&mut given.added.items, Vec::new(alloc));
    let Some(array) = given.values.value.as_array_mut() else {
        drop(items);
        return Ok(Answer::Nothing);
    };
    match array.to_mut() {
        Ok(array) => {
            array.extend(items)?;
            Ok(Answer::Done)
        }
        Err(error) => {
            drop(items);
            Ok(Answer::from(error))
        }
    }
}

/// Writes to an array that another value shares, and returns the other value.
fn of_shared_arrays<'g>(given: &'g mut Given) -> Answered<'g> {
    let other = Value::clone(&given.values.value)?;
    let member = member(given);
    match push(&mut given.values.value, member) {
        Ok(_) => Ok(Answer::Value(other)),
        Err(error) => {
            drop(other);
            Ok(Answer::from(error))
        }
    }
}

/// Puts a member into an object that is a value.
fn insert(value: &mut Value, name: String, member: Value) -> Result<(), AllocError> {
    let Some(object) = value.as_object_mut() else {
        drop(name);
        drop(member);
        return Ok(());
    };
    match object.to_mut() {
        Ok(object) => {
            let old = object.insert(name, member)?;
            drop(old);
            Ok(())
        }
        Err(error) => {
            drop(name);
            drop(member);
            Err(error)
        }
    }
}

/// Writes to an object that another value shares, and returns the other value.
fn of_shared_objects<'g>(alloc: Global, given: &'g mut Given) -> Answered<'g> {
    let (name, member) = (name(alloc, given), member(given));
    let Some(value) = given.values.object.get_mut("a") else {
        drop(name);
        drop(member);
        return Ok(Answer::Nothing);
    };
    written_alone(value, name, member)
}

/// Copies a value that is an object, puts a member into it, and returns the copy.
fn written_alone<'g>(value: &mut Value, name: String, member: Value) -> Answered<'g> {
    let other = match Value::clone(value) {
        Ok(other) => other,
        Err(error) => {
            drop(name);
            drop(member);
            return Ok(Answer::from(error));
        }
    };
    match insert(value, name, member) {
        Ok(()) => Ok(Answer::Value(other)),
        Err(error) => {
            drop(other);
            Ok(Answer::from(error))
        }
    }
}

/// Makes the calls that search an object, or make one.
fn of_objects<'g>(alloc: Global, word: &str, given: &'g Given) -> Answered<'g> {
    match word {
        "object_of" => Ok(Answer::Value(Value::from(object_of(alloc, &[("k", 1i64)])?))),
        "keys" => Ok(Answer::Listed(ObjectView::keys(&given.values.object, alloc)?)),
        _ => match ObjectView::lookup(&given.values.object, alloc, "a")? {
            Some(value) => Ok(Answer::Found(value)),
            None => Ok(Answer::Nothing),
        },
    }
}

/// Makes the calls that make an array.
fn of_arrays<'g>(alloc: Global, word: &str, given: &'g mut Given) -> Answered<'g> {
    match word {
        "array" => {
            let items = std::mem::replace(&mut given.added.items, Vec::new(alloc));
            Ok(Answer::Value(Value::array(alloc, items.into_iter())?))
        }
        _ => Ok(Answer::Value(Value::from(array_of(alloc, &["a", "b"])?))),
    }
}

/// Makes the calls that copy a value, or show its text.
fn of_copies<'g>(alloc: Global, word: &str, given: &'g Given) -> Answered<'g> {
    match word {
        "clone" => Ok(Answer::Value(Value::clone(&given.values.value)?)),
        "into_owned" => Ok(Answer::Value(ValueCow::into_owned(ValueCow::Borrowed(
            &given.values.value,
        ))?)),
        "to_value" => Ok(Answer::Value(ValueView::to_value(&given.values.value, alloc)?)),
        _ => Ok(Answer::Shown(Value::to_kstr(&given.values.value, alloc)?)),
    }
}

/// Makes the calls that write to an array or an object.
fn of_writes<'g>(alloc: Global, word: &str, given: &'g mut Given) -> Answered<'g> {
    match word {
        "insert" => inserted(alloc, given),
        "object_extend" => extended(alloc, given),
        "array_push" => pushed(given),
        "array_extend" => lengthened(alloc, given),
        "shared_array_push" => of_shared_arrays(given),
        _ => of_shared_objects(alloc, given),
    }
}

/// Copies the member, as a value that may be borrowed.
fn copied<'g>(given: &'g mut Given) -> Answered<'g> {
    let member = ValueCow::Owned(member(given));
    let copy = ValueCow::clone(&member);
    drop(member);
    Ok(Answer::Found(copy?))
}

/// Makes a call of values.
pub fn call<'g>(alloc: Global, word: &str, given: &'g mut Given) -> Answered<'g> {
    match word {
        "clone" | "into_owned" | "to_value" | "to_kstr" => of_copies(alloc, word, given),
        "array" | "array_of" => of_arrays(alloc, word, given),
        "object_of" | "lookup" | "keys" => of_objects(alloc, word, given),
        "cow_clone" => copied(given),
        "scalar_clone" | "scalar_into_owned" | "scalar_to_kstr" | "into_string" | "into_cow_str" =>
            { of_scalars(alloc, word, &given.alone.member) }
        _ => of_writes(alloc, word, given),
    }
}
