//! Facts that several tools tell, as the model has them.

use crate::facts::{Facts, fingerprint, list};
use crate::model::{Code, Item, Model, Property};

pub fn code(code: &Code) -> String {
    String::from_utf8_lossy(code).into_owned()
}

pub fn brands(model: &Model, facts: &mut Facts) {
    facts.say("major brand", code(&model.major));
    facts.say("brands", list(model.brands.iter().map(code)));
}

pub fn items(model: &Model, facts: &mut Facts) {
    for item in &model.items {
        facts.say(format!("item {}", item.id), code(&item.kind));
    }
}

pub fn content_types(model: &Model, facts: &mut Facts) {
    for item in &model.items {
        let (kind, _) = item.mime.unwrap_or_default();
        facts.say(format!("item {} content type", item.id), kind);
    }
}

/// The bytes that lie where an item's location says.
pub fn item_bytes(model: &Model, facts: &mut Facts) {
    for item in &model.items {
        facts.say(format!("item {} bytes", item.id), fingerprint(&item.bytes));
    }
}

pub fn references(model: &Model, facts: &mut Facts) {
    for reference in &model.references {
        let name = format!("{} from item {}", code(&reference.kind), reference.from);
        facts.say(name, list(&reference.to));
    }
}

/// The numbers of each item's properties, in their order.
pub fn links(model: &Model, facts: &mut Facts) {
    for (id, links) in &model.links {
        let numbers = links.iter().map(|(number, _)| number);
        facts.say(format!("properties of item {id}"), list(numbers));
    }
}

/// Type and length of each property box.
pub fn property_boxes(model: &Model, facts: &mut Facts) {
    for (i, property) in model.properties.iter().enumerate() {
        let length = property.body.len() + 8;
        facts.say(
            property_name(i),
            format!("{} {length}", code(&property.kind)),
        );
    }
}

/// Type and contents of each property box.
pub fn property_bodies(model: &Model, facts: &mut Facts) {
    for (i, property) in model.properties.iter().enumerate() {
        let value = format!("{} {}", code(&property.kind), fingerprint(&property.body));
        facts.say(property_name(i), value.trim_end());
    }
}

pub fn property_name(index: usize) -> String {
    format!("property {}", index + 1)
}

/// Width and height in an ispe box.
pub fn size(property: &Property) -> (u32, u32) {
    let number = |at: usize| {
        property.body[at..at + 4]
            .iter()
            .fold(0, |n, b| n << 8 | *b as u32)
    };
    (number(4), number(8))
}

/// Primaries, transfer, matrix and whether full range, in a colr box that is no profile.
pub fn cicp(property: &Property) -> Option<([u8; 3], bool)> {
    let body = &property.body;
    (body[..4] == *b"nclx").then(|| ([body[5], body[7], body[9]], body[10] == 0x80))
}

/// The profile in a colr box.
pub fn profile(property: &Property) -> Option<&[u8]> {
    property.body.strip_prefix(b"prof")
}

/// A picture's width and height.
pub fn item_size(model: &Model, id: u32) -> (u32, u32) {
    match model.properties_of(id, b"ispe")[..] {
        [property] => size(property),
        _ => panic!("an item without size"),
    }
}

/// The one byte of a turn or a mirror.
pub fn item_byte(model: &Model, id: u32, kind: &Code) -> Option<u8> {
    model.properties_of(id, kind).first().map(|p| p.body[0])
}

pub fn is_picture(item: &Item) -> bool {
    ![*b"Exif", *b"dExf", *b"mime"].contains(&item.kind)
}
