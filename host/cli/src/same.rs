//! `same`: whether two pictures expand to one file, and in which fields they differ.

use crate::args::Changes;
use crate::failure::Failure;
use crate::input::Input;
use crate::text::{count, grouped, words, wrapped};
use crate::tree::{Group, Value, at};
use crate::{json, output, record};
use bustardcase::{Chunk, Difference, FileType, MinimizedImage, differences, expanded_file_type};
use std::ffi::OsStr;

pub fn run([a, b]: [&OsStr; 2], changes: &Changes, as_json: bool) -> Result<bool, Failure> {
    let pair = Pair {
        a: side("a", a, changes, as_json)?,
        b: side("b", b, changes, as_json)?,
    };
    let rows = pair.rows();
    let types = pair.file_types().map_err(Failure::unanswered)?;
    output::print(&match as_json {
        true => json::text(&named(pair.same(), rows, types)),
        false => told(pair.same(), &rows, types.as_ref()),
    })?;
    Ok(pair.same())
}

/// A picture that is refused leaves the question without an answer.
fn side(
    which: &'static str,
    name: &OsStr,
    changes: &Changes,
    as_json: bool,
) -> Result<Side, Failure> {
    let side = Side::open(name, changes);
    let side = match as_json {
        true => json::told_with(side, || vec![("file", Value::Word(which))]),
        false => side,
    };
    side.map_err(Failure::unanswered)
}

/// A picture: its record, as it is and as named values, and the file that it expands to.
struct Side {
    input: Input,
    image: MinimizedImage,
    fields: Group,
    original: FileType,
    file: Vec<u8>,
}

impl Side {
    fn open(name: &OsStr, changes: &Changes) -> Result<Self, Failure> {
        let input = Input::open(name)?;
        let payload = input.payload();
        let original = changes.of(input.file_type());
        let file = expanded(&input, &original)?;
        let image = input.taken(bustardcase::read(payload))?;
        let check = input.taken(bustardcase::check(payload))?;
        Ok(Side {
            fields: record::of_image(&image, &check),
            input,
            image,
            original,
            file,
        })
    }

    /// The type of the expanded file.
    fn file_type(&self) -> Result<FileType, Failure> {
        self.input.taken(expanded_file_type(&self.file))
    }
}

fn expanded(input: &Input, original: &FileType) -> Result<Vec<u8>, Failure> {
    input.taken(bustardcase::expand(input.payload(), original))
}

struct Pair {
    a: Side,
    b: Side,
}

/// A field in which the records differ, with its value in each.
struct Row {
    name: &'static str,
    carried: bool,
    a: Value,
    b: Value,
    /// Of chunks of equal length, the first byte at which they differ.
    first: Option<usize>,
}

/// The types of the two expanded files.
struct FileTypes {
    a: Value,
    b: Value,
    /// Whether the files would be equal if both pictures had one type.
    only_difference: bool,
}

impl Pair {
    /// The files alone decide.
    fn same(&self) -> bool {
        self.a.file == self.b.file
    }

    fn rows(&self) -> Vec<Row> {
        let (a, b) = (&self.a, &self.b);
        let found = differences(&a.image, a.input.payload(), &b.image, b.input.payload());
        found.iter().map(|found| self.row(found)).collect()
    }

    fn row(&self, found: &Difference) -> Row {
        let a = at(&self.a.fields, found.field).clone();
        let b = at(&self.b.fields, found.field).clone();
        let first = match (&a, &b) {
            (Value::Chunk(a), Value::Chunk(b)) => self.first_difference(*a, *b),
            _ => None,
        };
        Row {
            name: found.field,
            carried: found.carried,
            a,
            b,
            first,
        }
    }

    fn first_difference(&self, a: Chunk, b: Chunk) -> Option<usize> {
        let a_bytes = a.of(self.a.input.payload());
        let b_bytes = b.of(self.b.input.payload());
        let first = a_bytes.iter().zip(b_bytes).position(|(a, b)| a != b);
        first.filter(|_| a.len == b.len)
    }

    /// The types of the expanded files, where they differ with those of the two pictures.
    fn file_types(&self) -> Result<Option<FileTypes>, Failure> {
        let [a, b] = [self.a.file_type()?, self.b.file_type()?];
        if self.a.original == self.b.original || a == b {
            return Ok(None);
        }
        Ok(Some(FileTypes {
            a: record::of_file_type(&a),
            b: record::of_file_type(&b),
            only_difference: self.same_under_one_type()?,
        }))
    }

    /// Which type it is makes no difference.
    fn same_under_one_type(&self) -> Result<bool, Failure> {
        Ok(expanded(&self.b.input, &self.a.original)? == self.a.file)
    }
}

/// For programs.
fn named(same: bool, rows: Vec<Row>, types: Option<FileTypes>) -> Group {
    let fields = rows.into_iter().map(|row| {
        let mut names = vec![
            ("name", Value::Word(row.name)),
            ("a", row.a),
            ("b", row.b),
            ("carried", Value::Flag(row.carried)),
        ];
        names.extend(row.first.map(|at| ("first_difference", Value::size(at))));
        Value::Group(names)
    });
    vec![
        ("same", Value::Flag(same)),
        ("fields", Value::List(fields.collect())),
        ("file_type", Value::maybe(types, named_types)),
    ]
}

fn named_types(types: FileTypes) -> Value {
    Value::Group(vec![
        ("a", types.a),
        ("b", types.b),
        ("only_difference", Value::Flag(types.only_difference)),
    ])
}

/// A name, and the words of both values.
type Line = (String, Vec<String>);

/// Yes or no, then what differs.
fn told(same: bool, rows: &[Row], types: Option<&FileTypes>) -> String {
    let mut carried = Vec::new();
    if let Some(types) = types {
        put_values(&mut carried, "file_type", &types.a, &types.b);
    }
    let mut free = Vec::new();
    for row in rows {
        let lines = if row.carried { &mut carried } else { &mut free };
        match row.first {
            Some(first) => lines.push((row.name.to_string(), equal_lengths(&row.a, first))),
            None => put_values(lines, row.name, &row.a, &row.b),
        }
    }
    let names = carried.iter().chain(&free).map(|(name, _)| name.len());
    let indent = 4 + names.max().unwrap_or(0);
    let mut out = String::from(match same {
        true => "yes: both expand to one file\n",
        false => "no: they expand to different files\n",
    });
    out += &aligned(&carried, indent);
    if !free.is_empty() {
        out += "no expanded file carries these differences:\n";
        out += &aligned(&free, indent);
    }
    if types.is_some_and(|types| types.only_difference) {
        out += "under one file type they expand to one file\n";
    }
    out
}

fn aligned(lines: &[Line], indent: usize) -> String {
    let mut out = String::new();
    for (name, words) in lines {
        let start = format!("  {name}");
        out += &format!("{start:indent$}{}\n", wrapped(words, indent));
    }
    out
}

/// A line for the values; for two groups, one for each value within that differs.
fn put_values(lines: &mut Vec<Line>, name: &str, a: &Value, b: &Value) {
    if let (Value::Group(a), Value::Group(b)) = (a, b) {
        let pairs = a.iter().zip(b).filter(|(a, b)| a != b);
        for ((inner, a), (_, b)) in pairs {
            put_values(lines, &format!("{name}.{inner}"), a, b);
        }
        return;
    }
    let mut line = value_words(a);
    line.push("|".to_string());
    line.extend(value_words(b));
    lines.push((name.to_string(), line));
}

fn equal_lengths(chunk: &Value, first: usize) -> Vec<String> {
    let mut line = value_words(chunk);
    line.push(format!(
        "each, the first difference at byte {}",
        grouped(first)
    ));
    line
}

fn value_words(value: &Value) -> Vec<String> {
    match value {
        Value::Chunk(chunk) => vec![count(chunk.len, "byte")],
        Value::Group(group) => group_words(group),
        other => words(other, 0),
    }
}

/// What stands beside an absent group. The values of a gain map would be too many.
fn group_words(group: &Group) -> Vec<String> {
    let is_group = |value: &Value| matches!(value, Value::Group(_));
    if group.iter().any(|(_, value)| is_group(value)) {
        return vec!["present".to_string()];
    }
    let told = |(name, value): &(_, Value)| format!("{name} {}", words(value, 0).join(" "));
    let told: Vec<String> = group.iter().map(told).collect();
    vec![told.join(", ")]
}
