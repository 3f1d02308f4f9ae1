//! A merge patch as a JSON Patch for one document: first a test of what stands at
//! each place that changes, then the edits.

use crate::merge::merge;
use crate::pointer;
use serde::Serialize;
use serde_json::Value;

#[derive(Serialize)]
pub struct Operation {
    op: &'static str,
    path: String,
    #[serde(skip_serializing_if = "Option::is_none")]
    value: Option<Value>,
}

#[derive(Default)]
struct Rewriting {
    tests: Vec<Operation>,
    edits: Vec<Operation>,
    /// The pointer to where the walk stands.
    path: String,
}

pub fn rewrite(document: &mut Value, patch: Value) -> Vec<Operation> {
    let mut rewriting = Rewriting::default();
    rewriting.walk(document, patch);
    let mut operations = rewriting.tests;
    operations.append(&mut rewriting.edits);
    operations
}

impl Rewriting {
    /// Moves out of the document and the patch what the operations take.
    fn walk(&mut self, old: &mut Value, patch: Value) {
        match (old, patch) {
            (Value::Object(old), Value::Object(patch)) => {
                let length = self.path.len();
                for (name, patch) in patch {
                    pointer::push(&mut self.path, &name);
                    match old.get_mut(&name) {
                        Some(old) if patch.is_null() => {
                            self.test(old);
                            self.edit("remove", None);
                        }
                        Some(old) => self.walk(old, patch),
                        None if patch.is_null() => {}
                        None => self.edit("add", Some(patch)),
                    }
                    self.path.truncate(length);
                }
            }
            (old, patch) if *old == patch => {}
            (old, patch) => {
                self.test(old);
                self.edit("replace", Some(patch));
            }
        }
    }

    fn test(&mut self, old: &mut Value) {
        self.tests.push(Operation {
            op: "test",
            path: self.path.clone(),
            value: Some(old.take()),
        });
    }

    /// An edit here, with the value that a patch leaves of an absent target.
    fn edit(&mut self, op: &'static str, patch: Option<Value>) {
        let value = patch.map(|patch| {
            let mut value = Value::Null;
            merge(&mut value, patch);
            value
        });
        self.edits.push(Operation {
            op,
            path: self.path.clone(),
            value,
        });
    }
}
