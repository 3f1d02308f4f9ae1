//! Calls over texts again and again, as a program over serde_json makes them: each reads its texts, and writes its answer. The
//! words and the input are those of bench/library.c.

use crate::{compact, join, merge, Refused};
use serde_json::Value;

/// The last answer of a job that is done so many times.
pub fn run(job: &str, times: usize, given: &[u8]) -> Result<String, Refused> {
    let texts = texts_of(given).ok_or_else(|| Refused::Form("a text is cut".into()))?;
    match job {
        "receive" => received(texts, times),
        "join" => repeated(times, || Ok(compact(&join::join(&values_of(texts.clone())?)?))),
        _ => repeated(times, || merged(&texts)),
    }
}

fn texts_of(mut given: &[u8]) -> Option<Vec<&[u8]>> {
    let mut texts = Vec::new();
    while let Some((length, rest)) = given.split_first_chunk() {
        let (text, rest) = rest.split_at_checked(usize::try_from(u64::from_le_bytes(*length)).ok()?)?;
        texts.push(text);
        given = rest;
    }
    Some(texts)
}

fn value_of(text: &[u8]) -> Result<Value, Refused> {
    serde_json::from_slice(text).map_err(|fault| Refused::Form(fault.to_string()))
}

fn values_of(texts: Vec<&[u8]>) -> Result<Vec<Value>, Refused> {
    texts.into_iter().map(value_of).collect()
}

fn repeated(times: usize, call: impl Fn() -> Result<String, Refused>) -> Result<String, Refused> {
    (1..times).try_for_each(|_| call().map(drop))?;
    call()
}

fn merged(texts: &[&[u8]]) -> Result<String, Refused> {
    let (document, patches) = texts.split_first().ok_or_else(|| Refused::Form("no document".into()))?;
    let mut document = value_of(document)?;
    for patch in patches {
        merge::merge(&mut document, value_of(patch)?);
    }
    Ok(compact(&document))
}

/// The document and the join of what was received, and each patch is checked against the join first.
fn received(texts: Vec<&[u8]>, times: usize) -> Result<String, Refused> {
    let (start, patches) = texts.split_first().ok_or_else(|| Refused::Form("no start".into()))?;
    let mut document = value_of(start)?;
    let mut joined: Option<Value> = None;
    for patch in &patches[..times] {
        let patch = value_of(patch)?;
        match &mut joined {
            Some(joined) if join::compatible(joined, &patch) => join::unite(joined, &patch),
            Some(_) => return Err(Refused::Work("conflict".into())),
            None => joined = Some(patch.clone()),
        }
        merge::merge(&mut document, patch);
    }
    Ok(compact(&document))
}
