//! libheif's heif-info --dump-boxes: every box.

use super::{LIBHEIF, Tool, cut, every_file, number, run};
use crate::case::Case;
use crate::expect;
use crate::facts::{Facts, fingerprint_at, list};
use crate::model::{GROUP, Model, Property};

pub const TOOL: Tool = Tool {
    name: "heif-info --dump-boxes",
    program: "heif-info",
    version: &["--help"],
    known: LIBHEIF,
    takes: every_file,
    expected,
    reported,
};

fn expected(case: &Case) -> Facts {
    let model = &case.model;
    let mut facts = Facts::opened();
    expect::brands(model, &mut facts);
    facts.say("handler", "pict");
    facts.say("primary item", "1");
    expect::items(model, &mut facts);
    expect::content_types(model, &mut facts);
    expect::item_bytes(model, &mut facts);
    expect::references(model, &mut facts);
    expect::property_boxes(model, &mut facts);
    hidden(model, &mut facts);
    essential_links(model, &mut facts);
    for (i, property) in model.properties.iter().enumerate() {
        for (name, value) in fields(property) {
            facts.say(format!("{} {name}", expect::property_name(i)), value);
        }
    }
    if let Some(members) = model.group {
        facts.say(format!("group {GROUP}"), format!("altr {}", list(members)));
    }
    facts
}

fn hidden(model: &Model, facts: &mut Facts) {
    for item in &model.items {
        let (_, encoding) = item.mime.unwrap_or_default();
        facts.say(format!("item {} hidden", item.id), item.hidden.to_string());
        facts.say(format!("item {} encoding", item.id), encoding);
    }
}

fn essential_links(model: &Model, facts: &mut Facts) {
    for (id, links) in &model.links {
        let words = links
            .iter()
            .map(|(number, essential)| link(*number, *essential));
        facts.say(format!("properties of item {id}"), list(words));
    }
}

/// An essential property has a mark.
fn link(number: usize, essential: bool) -> String {
    format!("{number}{}", if essential { "!" } else { "" })
}

/// What is printed of a property.
fn fields(property: &Property) -> Vec<(&'static str, String)> {
    let body = &property.body;
    let pair = |at: usize| u16::from_be_bytes([body[at], body[at + 1]]);
    match &property.kind {
        b"ispe" => {
            let (width, height) = expect::size(property);
            let [width, height] = [width, height].map(|n| n.to_string());
            vec![("image width", width), ("image height", height)]
        }
        b"pixi" => {
            let bits: Vec<String> = body[5..5 + body[4] as usize]
                .iter()
                .map(u8::to_string)
                .collect();
            vec![("bits_per_channel", bits.join(","))]
        }
        b"colr" => colour(property),
        b"auxC" => vec![("aux type", crate::model::ALPHA_URN.to_string())],
        b"irot" => vec![("rotation", format!("{} degrees (CCW)", body[0] as u32 * 90))],
        b"imir" => vec![("mirror direction", direction(body[0]).to_string())],
        b"clli" => vec![
            ("max_content_light_level", pair(0).to_string()),
            ("max_pic_average_light_level", pair(2).to_string()),
        ],
        _ => Vec::new(),
    }
}

/// Axis 1 exchanges left and right.
fn direction(axis: u8) -> &'static str {
    if axis == 1 { "horizontal" } else { "vertical" }
}

fn colour(property: &Property) -> Vec<(&'static str, String)> {
    if let Some(profile) = expect::profile(property) {
        let length = profile.len().to_string();
        return vec![
            ("colour_type", "prof".to_string()),
            ("profile size", length),
        ];
    }
    let (numbers, full_range) = expect::cicp(property).expect("it is no profile");
    let [primaries, transfer, matrix] = numbers.map(|n| n.to_string());
    vec![
        ("colour_type", "nclx".to_string()),
        ("colour_primaries", primaries),
        ("transfer_characteristics", transfer),
        ("matrix_coefficients", matrix),
        ("full_range_flag", (full_range as u8).to_string()),
    ]
}

/// A box of the dump: its type and the lines under it.
struct Dumped<'a> {
    kind: &'a str,
    lines: Vec<&'a str>,
}

impl Dumped<'_> {
    fn field(&self, name: &str) -> String {
        let fields = self.lines.iter().filter_map(|line| cut(line, ":"));
        let mut values = fields.filter(|(n, _)| *n == name).map(|(_, value)| value);
        values.next().unwrap_or_default().to_string()
    }

    /// The box's length, of 'size: 20   (header size: 12)'.
    fn length(&self) -> String {
        let size = self.field("size");
        size.split(' ').next().unwrap_or_default().to_string()
    }
}

fn reported(case: &Case) -> Result<Facts, String> {
    let answer = run(TOOL.program, &["--dump-boxes", &case.path])?;
    let mut facts = Facts::opened();
    let boxes = boxes(&answer.text);
    for dumped in &boxes {
        tell(dumped, case, &mut facts)?;
    }
    tell_properties(&boxes, &mut facts);
    Ok(facts)
}

fn boxes(text: &str) -> Vec<Dumped<'_>> {
    let mut boxes: Vec<Dumped> = Vec::new();
    for line in text.lines() {
        let line = line.trim_start_matches(['|', ' ']).trim();
        if let Some(rest) = line.strip_prefix("Box: ") {
            let kind = rest.split(' ').next().unwrap_or_default();
            let lines = Vec::new();
            boxes.push(Dumped { kind, lines });
        } else if let Some(last) = boxes.last_mut() {
            last.lines.push(line);
        }
    }
    boxes
}

fn tell(dumped: &Dumped, case: &Case, facts: &mut Facts) -> Result<(), String> {
    match dumped.kind {
        "ftyp" => {
            facts.say("major brand", dumped.field("major brand"));
            let brands = dumped.field("compatible brands");
            facts.say("brands", list(brands.split(',')));
        }
        "hdlr" => facts.say("handler", dumped.field("handler_type")),
        "pitm" => facts.say("primary item", dumped.field("item_ID")),
        "infe" => tell_item(dumped, facts),
        "iref" => tell_references(dumped, facts),
        "ipma" => tell_links(dumped, facts),
        // From version 1.19 on the group is a box of its own.
        "grpl" if !dumped.field("group id").is_empty() => {
            tell_group(&dumped.field("group type"), dumped, facts);
        }
        "altr" => tell_group("altr", dumped, facts),
        "iloc" => tell_locations(dumped, case, facts)?,
        _ => {}
    }
    Ok(())
}

fn tell_item(dumped: &Dumped, facts: &mut Facts) {
    let name = format!("item {}", dumped.field("item_ID"));
    facts.say(name.clone(), dumped.field("item_type"));
    facts.say(format!("{name} content type"), dumped.field("content_type"));
    facts.say(format!("{name} encoding"), dumped.field("content_encoding"));
    facts.say(format!("{name} hidden"), dumped.field("hidden item"));
}

/// Lines as "reference with type 'dimg' from ID: 3 to IDs: 1 4".
fn tell_references(dumped: &Dumped, facts: &mut Facts) {
    for line in &dumped.lines {
        let parts: Vec<&str> = line.split(['\'', ':']).map(str::trim).collect();
        if let [_, kind, _, from, to] = parts[..] {
            let from = from.split(' ').next().unwrap_or_default();
            facts.say(format!("{kind} from item {from}"), to);
        }
    }
}

fn tell_links(dumped: &Dumped, facts: &mut Facts) {
    let mut all: Vec<(&str, Vec<String>)> = Vec::new();
    for line in &dumped.lines {
        if let Some(id) = line.strip_prefix("associations for item ID: ") {
            all.push((id, Vec::new()));
        } else if let (Some(index), Some(last)) =
            (line.strip_prefix("property index: "), all.last_mut())
        {
            last.1.push(
                index
                    .replace(" (essential: true)", "!")
                    .replace(" (essential: false)", ""),
            );
        }
    }
    for (id, links) in all {
        facts.say(format!("properties of item {id}"), list(links));
    }
}

fn tell_group(kind: &str, dumped: &Dumped, facts: &mut Facts) {
    let members = format!("{kind} {}", dumped.field("entity IDs"));
    facts.say(format!("group {}", dumped.field("group id")), members);
}

/// Of each item the bytes that lie at its one extent, counted from the file's start.
fn tell_locations(dumped: &Dumped, case: &Case, facts: &mut Facts) -> Result<(), String> {
    let mut id = "";
    let mut base = 0;
    for line in &dumped.lines {
        match cut(line, ":") {
            Some(("item ID", value)) => id = value,
            Some(("construction method", method)) if method != "0" => {
                facts.say(format!("item {id} construction method"), method);
            }
            Some(("base_offset", value)) => base = number(value)?,
            Some(("extents", value)) => {
                let bytes = extents(value, base, case)?;
                facts.say(format!("item {id} bytes"), bytes);
            }
            _ => {}
        }
    }
    Ok(())
}

fn extents(value: &str, base: usize, case: &Case) -> Result<String, String> {
    let one = |extent: &str| {
        let (start, length) = cut(extent, ",").ok_or(format!("no extent: {extent}"))?;
        Ok(fingerprint_at(
            &case.file,
            base + number(start)?,
            number(length)?,
        ))
    };
    let all: Result<Vec<String>, String> = value.split_whitespace().map(one).collect();
    Ok(all?.join(" and "))
}

/// The boxes between ipco and ipma.
fn tell_properties(boxes: &[Dumped], facts: &mut Facts) {
    let inside = boxes.iter().skip_while(|b| b.kind != "ipco").skip(1);
    for (i, dumped) in inside.take_while(|b| b.kind != "ipma").enumerate() {
        let name = expect::property_name(i);
        facts.say(name.clone(), format!("{} {}", dumped.kind, dumped.length()));
        for line in &dumped.lines {
            if let Some((field, value)) = cut(line, ":").filter(|(field, _)| is_compared(field)) {
                facts.say(format!("{name} {field}"), value);
            }
        }
    }
}

/// Those that `fields` has. The fields of av1C and hvcC are the codec's.
fn is_compared(field: &str) -> bool {
    const FIELDS: [&str; 14] = [
        "image width",
        "image height",
        "bits_per_channel",
        "colour_type",
        "profile size",
        "colour_primaries",
        "transfer_characteristics",
        "matrix_coefficients",
        "full_range_flag",
        "aux type",
        "rotation",
        "mirror direction",
        "max_content_light_level",
        "max_pic_average_light_level",
    ];
    FIELDS.contains(&field)
}
