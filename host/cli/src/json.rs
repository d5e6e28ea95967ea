//! Named values as JSON.

use crate::failure::Failure;
use crate::output;
use crate::tree::{Group, Value};

/// One object, with a line for each name.
pub fn text(group: &Group) -> String {
    let mut out = String::new();
    put_group(&mut out, group, 0);
    out.push('\n');
    out
}

/// A refused picture says so on the standard output as well.
pub fn told<T>(answer: Result<T, Failure>) -> Result<T, Failure> {
    told_with(answer, Vec::new)
}

/// The same, with more names after those of the refusal.
pub fn told_with<T>(
    answer: Result<T, Failure>,
    more: impl FnOnce() -> Group,
) -> Result<T, Failure> {
    if let Err(Failure::Refused {
        refusal, broken, ..
    }) = &answer
    {
        let mut words = vec![
            ("number", Value::Number(refusal.number().into())),
            ("meaning", Value::Word(refusal.meaning())),
        ];
        words.extend(broken.iter().flat_map(|broken| broken.named()));
        words.extend(more());
        output::print(&text(&vec![("refusal", Value::Group(words))]))?;
    }
    answer
}

fn put(out: &mut String, value: &Value, depth: usize) {
    match value {
        Value::Absent => out.push_str("null"),
        Value::Flag(flag) => out.push_str(&flag.to_string()),
        Value::Number(number) => out.push_str(&number.to_string()),
        Value::Word(word) => put_string(out, word.chars()),
        // Each byte as the character of its number.
        Value::Code(code) => put_string(out, code.0.into_iter().map(char::from)),
        Value::Bytes(bytes) => {
            let digits: String = bytes.iter().map(|b| format!("{b:02x}")).collect();
            put_string(out, digits.chars());
        }
        Value::Chunk(chunk) => {
            let place = format!("{{\"position\": {}, \"length\": {}}}", chunk.at, chunk.len);
            out.push_str(&place);
        }
        Value::List(values) => put_list(out, values, depth),
        Value::Group(group) => put_group(out, group, depth),
    }
}

fn put_list(out: &mut String, values: &[Value], depth: usize) {
    out.push('[');
    for (i, value) in values.iter().enumerate() {
        if i > 0 {
            out.push_str(", ");
        }
        put(out, value, depth);
    }
    out.push(']');
}

fn put_group(out: &mut String, group: &Group, depth: usize) {
    out.push('{');
    for (i, (name, value)) in group.iter().enumerate() {
        if i > 0 {
            out.push(',');
        }
        put_line(out, depth + 1);
        put_string(out, name.chars());
        out.push_str(": ");
        put(out, value, depth + 1);
    }
    put_line(out, depth);
    out.push('}');
}

fn put_line(out: &mut String, depth: usize) {
    out.push('\n');
    out.push_str(&"  ".repeat(depth));
}

fn put_string(out: &mut String, text: impl Iterator<Item = char>) {
    out.push('"');
    for c in text {
        match c {
            '"' | '\\' => out.extend(['\\', c]),
            ' '..='~' => out.push(c),
            _ => out.push_str(&format!("\\u{:04x}", c as u32)),
        }
    }
    out.push('"');
}
