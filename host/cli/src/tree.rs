//! Named values, from which both text and JSON are made.

use bustardcase::{Chunk, FourCc};

#[derive(Clone, PartialEq)]
pub enum Value {
    Absent,
    Flag(bool),
    Number(u64),
    /// A word, or several.
    Word(&'static str),
    Code(FourCc),
    Bytes(Vec<u8>),
    Chunk(Chunk),
    List(Vec<Value>),
    Group(Group),
}

/// Names and their values, in order.
pub type Group = Vec<(&'static str, Value)>;

/// The value under names with dots between them; absent where a group around it is.
pub fn at<'a>(group: &'a Group, path: &str) -> &'a Value {
    let (name, inner) = match path.split_once('.') {
        Some((name, inner)) => (name, Some(inner)),
        None => (path, None),
    };
    let member = group.iter().find(|(known, _)| *known == name);
    match (member.map(|(_, value)| value), inner) {
        (Some(Value::Group(group)), Some(inner)) => at(group, inner),
        (Some(value), None) => value,
        _ => &Value::Absent,
    }
}

impl Value {
    /// The value made of what is there, or that it is absent.
    pub fn maybe<T>(there: Option<T>, make: impl FnOnce(T) -> Value) -> Value {
        there.map_or(Value::Absent, make)
    }

    pub fn size(number: usize) -> Value {
        Value::Number(number as u64)
    }
}
