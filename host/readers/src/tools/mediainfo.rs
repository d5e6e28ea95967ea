//! MediaInfo: the pictures among the items.

use super::{Tool, cut, every_file, run};
use crate::case::Case;
use crate::expect::{self, code, is_picture};
use crate::facts::{Facts, list};
use crate::model::{MAIN, Model};

pub const TOOL: Tool = Tool {
    name: "mediainfo",
    program: "mediainfo",
    version: &["--Version"],
    known: &["v23.04", "v25.04"],
    takes: every_file,
    expected,
    reported,
};

fn expected(case: &Case) -> Facts {
    let model = &case.model;
    let mut facts = Facts::opened();
    expect::brands(model, &mut facts);
    for item in model.items.iter().filter(|item| is_picture(item)) {
        let name = |what: &str| format!("image {} {what}", item.id);
        facts.say(name("CodecID"), code(&item.kind));
        facts.say(name("StreamSize"), item.bytes.len().to_string());
        let (width, height) = expect::item_size(model, item.id);
        facts.say(name("Width"), width.to_string());
        facts.say(name("Height"), height.to_string());
        if let Some(angle) = expect::item_byte(model, item.id, b"irot") {
            facts.say(name("Rotation"), format!("-{}", angle as u32 * 90));
        }
    }
    references(model, &mut facts);
    facts
}

/// 'Describes' names the items that describe the main picture.
fn references(model: &Model, facts: &mut Facts) {
    for reference in &model.references {
        let name = match &reference.kind {
            b"auxl" => "Auxilary_for",
            b"dimg" => "Derived_for",
            _ => continue,
        };
        facts.say(
            format!("image {} {name}", reference.from),
            list(&reference.to),
        );
    }
    let describing = model.references.iter().filter(|r| r.kind == *b"cdsc");
    let describing: Vec<u32> = describing.map(|r| r.from).collect();
    if !describing.is_empty() {
        facts.say(format!("image {MAIN} Describes"), list(describing));
    }
}

/// One element of XML a line.
fn reported(case: &Case) -> Result<Facts, String> {
    let answer = run(TOOL.program, &["--Output=XML", &case.path])?;
    let mut facts = Facts::opened();
    let mut image = None;
    for line in answer.text.lines() {
        let Some((name, value)) = element(line) else {
            continue;
        };
        match (name, &image) {
            ("CodecID", None) => facts.say("major brand", value),
            ("CodecID_Compatible", None) => facts.say("brands", list(value.split('/'))),
            ("ID", _) => image = Some(value),
            (_, Some(id)) if is_compared(name) => {
                facts.say(format!("image {id} {name}"), list(value.split(',')));
            }
            _ => {}
        }
    }
    Ok(facts)
}

fn is_compared(name: &str) -> bool {
    const NAMES: [&str; 8] = [
        "CodecID",
        "StreamSize",
        "Width",
        "Height",
        "Rotation",
        "Auxilary_for",
        "Derived_for",
        "Describes",
    ];
    NAMES.contains(&name)
}

/// Name and text of a line '<name>text</name>'.
fn element(line: &str) -> Option<(&str, &str)> {
    let (name, rest) = cut(line.strip_prefix('<')?, ">")?;
    let (text, _) = cut(rest, "</")?;
    Some((name, text))
}
