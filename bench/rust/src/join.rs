//! The join of merge patches, or which two of them conflict and where.

use crate::{pointer, Refused};
use serde_json::Value;

/// One merge patch with the effect of all.
pub fn join(patches: &[Value]) -> Result<Value, Refused> {
    let (first, rest) = patches
        .split_first()
        .ok_or_else(|| Refused::Work("no patches".into()))?;
    let mut joined = first.clone();
    for (place, patch) in rest.iter().enumerate() {
        if !compatible(&joined, patch) {
            return Err(conflict(&patches[..=place], patch));
        }
        unite(&mut joined, patch);
    }
    Ok(joined)
}

pub fn compatible(left: &Value, right: &Value) -> bool {
    match (left, right) {
        (Value::Object(left), Value::Object(right)) => {
            right.iter().all(|(name, right)| match left.get(name) {
                Some(left) => compatible(left, right),
                None => true,
            })
        }
        (Value::Object(_), _) | (_, Value::Object(_)) => false,
        _ => left == right,
    }
}

/// Adds what a compatible patch has to the join so far.
pub fn unite(joined: &mut Value, patch: &Value) {
    if let (Value::Object(joined), Value::Object(patch)) = (joined, patch) {
        for (name, value) in patch {
            match joined.get_mut(name) {
                Some(part) => unite(part, value),
                None => {
                    joined.insert(name.clone(), value.clone());
                }
            }
        }
    }
}

/// The line about a patch that conflicts with one of those before it.
fn conflict(before: &[Value], patch: &Value) -> Refused {
    let earlier = before
        .iter()
        .position(|earlier| !compatible(earlier, patch));
    let earlier = earlier.expect("a patch that conflicts with a join conflicts with a member");
    let mut places = Vec::new();
    conflicts(&before[earlier], patch, &mut String::new(), &mut places);
    let later = before.len();
    Refused::Work(format!(
        "conflict: patches {earlier} and {later} at {}",
        places.join(", ")
    ))
}

/// All places where two patches conflict, as JSON.
fn conflicts(left: &Value, right: &Value, pointer: &mut String, places: &mut Vec<String>) {
    match (left, right) {
        (Value::Object(left), Value::Object(right)) => {
            let length = pointer.len();
            for (name, right) in right {
                if let Some(left) = left.get(name) {
                    pointer::push(pointer, name);
                    conflicts(left, right, pointer, places);
                    pointer.truncate(length);
                }
            }
        }
        _ if compatible(left, right) => {}
        _ => places.push(Value::from(pointer.as_str()).to_string()),
    }
}
