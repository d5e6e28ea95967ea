//! Named values as aligned lines, and text in 80 columns.

use crate::tree::{Group, Value};

pub const COLUMNS: usize = 80;

/// A line for each value, under its name with those of the groups around it.
pub fn lines(group: &Group) -> String {
    let mut rows = Vec::new();
    let digits = digits(group);
    put_group(&mut rows, "", group, digits);
    let names = rows.iter().map(|(name, _)| name.len()).max().unwrap_or(0);
    let indent = names + 2;
    let mut out = String::new();
    for (name, words) in rows {
        let value = wrapped(&words, indent);
        out += &format!("{name:indent$}{value}\n");
    }
    out
}

/// Words with spaces between them, in lines of at most 80 columns, each but the first behind `indent`
/// spaces.
pub fn wrapped<T: AsRef<str>>(words: &[T], indent: usize) -> String {
    let mut lines: Vec<String> = Vec::new();
    for word in words.iter().map(AsRef::as_ref) {
        match lines.last_mut() {
            Some(line) if indent + line.len() + 1 + word.len() <= COLUMNS => {
                line.push(' ');
                line.push_str(word);
            }
            _ => lines.push(word.to_string()),
        }
    }
    lines.join(&format!("\n{:indent$}", ""))
}

/// A paragraph, broken to 80 columns.
pub fn paragraph(text: &str) -> String {
    let words: Vec<&str> = text.split(' ').collect();
    wrapped(&words, 0) + "\n"
}

/// How many of a thing, in words: `1 byte`, `2 bytes`.
pub fn count(number: usize, thing: &str) -> String {
    let s = if number == 1 { "" } else { "s" };
    format!("{} {thing}{s}", grouped(number))
}

/// The number with a comma before every third digit from its end.
pub fn grouped(number: usize) -> String {
    let digits = number.to_string();
    let mut out = String::new();
    for (i, digit) in digits.chars().enumerate() {
        if i > 0 && (digits.len() - i).is_multiple_of(3) {
            out.push(',');
        }
        out.push(digit);
    }
    out
}

/// A name, and the words of its value.
type Row = (String, Vec<String>);

fn put_group(rows: &mut Vec<Row>, prefix: &str, group: &Group, digits: usize) {
    for (name, value) in group {
        let name = format!("{prefix}{name}");
        match value {
            Value::Group(inner) => put_group(rows, &format!("{name}."), inner, digits),
            other => rows.push((name, words(other, digits))),
        }
    }
}

/// The words of a value that is no group; the numbers of a chunk have so many digits.
pub fn words(value: &Value, digits: usize) -> Vec<String> {
    match value {
        Value::Absent => vec!["none".to_string()],
        Value::Flag(flag) => vec![if *flag { "yes" } else { "no" }.to_string()],
        Value::Number(number) => vec![number.to_string()],
        Value::Word(word) => word.split(' ').map(str::to_string).collect(),
        Value::Code(code) => vec![code.to_string()],
        Value::Bytes(bytes) => bytes.iter().map(|b| format!("{b:02x}")).collect(),
        Value::Chunk(chunk) => vec![format!(
            "position {:>digits$}  length {:>digits$}",
            chunk.at, chunk.len
        )],
        Value::List(values) if values.is_empty() => vec!["none".to_string()],
        Value::List(values) => values.iter().flat_map(|v| words(v, digits)).collect(),
        Value::Group(_) => Vec::new(),
    }
}

/// How many digits the longest number of a chunk has.
fn digits(group: &Group) -> usize {
    let of = |value: &Value| match value {
        Value::Chunk(chunk) => chunk.at.max(chunk.len).to_string().len(),
        Value::Group(inner) => digits(inner),
        _ => 0,
    };
    group.iter().map(|(_, value)| of(value)).max().unwrap_or(0)
}
