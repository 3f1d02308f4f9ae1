//! JSON Merge Patch (RFC 7396).

use serde_json::{Map, Value};

pub fn merge(target: &mut Value, patch: Value) {
    if let Value::Object(patch) = patch {
        if !target.is_object() {
            *target = Value::Object(Map::new());
        }
        let members = target.as_object_mut().expect("an object");
        for (name, value) in patch {
            if value.is_null() {
                members.remove(&name);
            } else {
                merge(members.entry(name).or_insert(Value::Null), value);
            }
        }
    } else {
        *target = patch;
    }
}
