//! JSON Patch (RFC 6902). It refuses what RFC 6902 does and to remove the root, but
//! knows no limit of depth.

use crate::pointer::{find, index, parse, Path};
use crate::Refused;
use serde_json::Value;
use std::borrow::Cow;

enum Edit<'a> {
    Add(Value),
    Remove,
    Replace(Value),
    Move(Path<'a>),
    Copy(Path<'a>),
    Test(Value),
}

/// Applies a patch, whose operations must all be well formed.
pub fn apply(document: &mut Value, patch: &mut [Value]) -> Result<(), Refused> {
    let mut operations = Vec::with_capacity(patch.len());
    for (number, operation) in patch.iter_mut().enumerate() {
        let operation = read(operation)
            .map_err(|fault| Refused::Form(format!("operation {number}: {fault}")))?;
        operations.push(operation);
    }
    for (number, (path, edit)) in operations.into_iter().enumerate() {
        run(document, &path, edit)
            .map_err(|cause| Refused::Work(format!("operation {number}: {cause}")))?;
    }
    Ok(())
}

/// Where an operation edits and what it does there, with its value taken out.
fn read(operation: &mut Value) -> Result<(Path<'_>, Edit<'_>), &'static str> {
    let value = operation
        .get_mut("value")
        .map(Value::take)
        .ok_or("no value");
    let members = operation.as_object().ok_or("not an object")?;
    let text = |name| members.get(name).and_then(Value::as_str);
    let path = |name, fault| parse(text(name).ok_or(fault)?).map_err(|_| "bad pointer");
    let edit = match text("op").ok_or("no op")? {
        "add" => Edit::Add(value?),
        "remove" => Edit::Remove,
        "replace" => Edit::Replace(value?),
        "move" => Edit::Move(path("from", "no from")?),
        "copy" => Edit::Copy(path("from", "no from")?),
        "test" => Edit::Test(value?),
        _ => return Err("unknown op"),
    };
    Ok((path("path", "no path")?, edit))
}

fn run(document: &mut Value, path: &[Cow<'_, str>], edit: Edit<'_>) -> Result<(), &'static str> {
    match edit {
        Edit::Add(value) => add(document, path, value)?,
        Edit::Remove => drop(remove(document, path)?),
        Edit::Replace(value) => *find(document, path).ok_or("missing")? = value,
        Edit::Move(from) if path == from => drop(find(document, path).ok_or("missing")?),
        Edit::Move(from) if path.starts_with(&from) => return Err("into itself"),
        Edit::Move(from) => {
            let value = remove(document, &from)?;
            add(document, path, value)?;
        }
        Edit::Copy(from) => {
            let value = find(document, &from).ok_or("missing")?.clone();
            add(document, path, value)?;
        }
        Edit::Test(value) if *find(document, path).ok_or("missing")? == value => {}
        Edit::Test(_) => return Err("test failed"),
    }
    Ok(())
}

fn add(document: &mut Value, path: &[Cow<'_, str>], value: Value) -> Result<(), &'static str> {
    let (last, front) = match path.split_last() {
        Some(split) => split,
        None => {
            *document = value;
            return Ok(());
        }
    };
    match find(document, front).ok_or("no place")? {
        Value::Object(members) => {
            members.insert(last.to_string(), value);
        }
        Value::Array(items) if last == "-" => items.push(value),
        Value::Array(items) => {
            let place = index(last).filter(|place| *place <= items.len());
            items.insert(place.ok_or("no place")?, value);
        }
        _ => return Err("no place"),
    }
    Ok(())
}

fn remove(document: &mut Value, path: &[Cow<'_, str>]) -> Result<Value, &'static str> {
    let (last, front) = path.split_last().ok_or("remove of root")?;
    let removed = match find(document, front).ok_or("missing")? {
        Value::Object(members) => members.remove(last.as_ref()),
        Value::Array(items) => index(last)
            .filter(|place| *place < items.len())
            .map(|place| items.remove(place)),
        _ => None,
    };
    removed.ok_or("missing")
}
