//! JSON Pointer (RFC 6901).

use crate::Refused;
use serde_json::Value;
use std::borrow::Cow;

/// The tokens of a pointer, without their escapes.
pub type Path<'a> = Vec<Cow<'a, str>>;

/// Reads a pointer, or says why the text is none.
pub fn parse(text: &str) -> Result<Path<'_>, &'static str> {
    if text.is_empty() {
        return Ok(Vec::new());
    }
    let spelled = text.strip_prefix('/').ok_or("no slash")?;
    spelled.split('/').map(unescape).collect()
}

fn unescape(token: &str) -> Result<Cow<'_, str>, &'static str> {
    if !token.contains('~') {
        return Ok(Cow::Borrowed(token));
    }
    if !token
        .split('~')
        .skip(1)
        .all(|rest| rest.starts_with(['0', '1']))
    {
        return Err("bad tilde");
    }
    Ok(Cow::Owned(token.replace("~1", "/").replace("~0", "~")))
}

/// Adds a token to a pointer, with its escapes.
pub fn push(pointer: &mut String, token: &str) {
    pointer.push('/');
    if token.contains(['~', '/']) {
        pointer.push_str(&token.replace('~', "~0").replace('/', "~1"));
    } else {
        pointer.push_str(token);
    }
}

/// The index that a token is in an array.
pub fn index(token: &str) -> Option<usize> {
    let digits = token.bytes().all(|byte| byte.is_ascii_digit());
    if digits && (token == "0" || !token.starts_with('0')) {
        token.parse().ok()
    } else {
        None
    }
}

/// The part of a document that a path names.
pub fn find<'a>(document: &'a mut Value, path: &[Cow<'_, str>]) -> Option<&'a mut Value> {
    path.iter().try_fold(document, |part, token| match part {
        Value::Object(members) => members.get_mut(token.as_ref()),
        Value::Array(items) => items.get_mut(index(token)?),
        _ => None,
    })
}

/// The part of a document that the pointer on the command line names.
pub fn get<'a>(document: &'a mut Value, pointer: &str) -> Result<&'a mut Value, Refused> {
    let path = parse(pointer).map_err(|fault| Refused::Form(format!("pointer: {fault}")))?;
    find(document, &path).ok_or_else(|| Refused::Work("missing".into()))
}
