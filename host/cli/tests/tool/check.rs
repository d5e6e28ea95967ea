//! `check`.

use crate::folder::{Folder, assert_within_80_columns};
use crate::json::Json;
use crate::payloads::{FTYP, everything, file, oriented, picture};

const NAMES: [&str; 5] = [
    "integer_samples",
    "no_gain_map",
    "exif_present",
    "width_fits",
    "height_fits",
];

#[test]
fn yes() {
    let folder = Folder::new("check-yes");
    folder.put("in", &file(FTYP, &picture(1920, 1080, false, true)));
    let text = folder.run(&["check", "in"]).text(0);
    let expected = "\
yes: the display takes the picture as it is
  holds  the samples are integers     integers of 8 bits
  holds  there is no gain map         there is none
  holds  Exif is present              there is one
  holds  the width is at most 1,920   1,920
  holds  the height is at most 1,080  1,080
";
    assert_eq!(text, expected);
    assert_within_80_columns(&text);
}

#[test]
fn no() {
    let folder = Folder::new("check-no");
    folder.put("in", &picture(1921, 1080, false, true));
    let text = folder.run(&["check", "in"]).text(1);
    let expected = "\
no: the display does not take the picture as it is
  holds  the samples are integers     integers of 8 bits
  holds  there is no gain map         there is none
  holds  Exif is present              there is one
  fails  the width is at most 1,920   1,921
  holds  the height is at most 1,080  1,080
";
    assert_eq!(text, expected);
}

/// A camera that stands upright stores a frame that fits, and what is shown does not.
#[test]
fn no_for_the_size_as_shown() {
    let folder = Folder::new("check-shown-no");
    folder.put("in", &oriented(6, picture(1920, 1080, false, true)));
    let text = folder.run(&["check", "in"]).text(1);
    let expected = "\
no: the display does not take the picture as it is
  holds  the samples are integers     integers of 8 bits
  holds  there is no gain map         there is none
  holds  Exif is present              there is one
  holds  the width is at most 1,920   1,080 as shown; stored 1,920 by 1,080,
                                      orientation 6
  fails  the height is at most 1,080  1,920 as shown; stored 1,920 by 1,080,
                                      orientation 6
";
    assert_eq!(text, expected);
    assert_within_80_columns(&text);
}

#[test]
fn yes_for_the_size_as_shown() {
    let folder = Folder::new("check-shown-yes");
    folder.put("in", &oriented(8, picture(1080, 1920, false, true)));
    let text = folder.run(&["check", "in"]).text(0);
    let expected = "\
yes: the display takes the picture as it is
  holds  the samples are integers     integers of 8 bits
  holds  there is no gain map         there is none
  holds  Exif is present              there is one
  holds  the width is at most 1,920   1,920 as shown; stored 1,080 by 1,920,
                                      orientation 8
  holds  the height is at most 1,080  1,080 as shown; stored 1,080 by 1,920,
                                      orientation 8
";
    assert_eq!(text, expected);
}

/// Both sizes are told only where they differ.
#[test]
fn a_size_that_is_not_exchanged_is_told_once() {
    let folder = Folder::new("check-shown-once");
    let wide = (1..=4).map(|orientation| oriented(orientation, picture(1920, 1080, false, true)));
    let square = (1..=8).map(|orientation| oriented(orientation, picture(900, 900, false, true)));
    for payload in wide.chain(square) {
        folder.put("in", &payload);
        let text = folder.run(&["check", "in"]).text(0);
        assert!(!text.contains("stored"), "{text}");
    }
}

#[test]
fn the_largest_sizes_stay_within_80_columns() {
    let folder = Folder::new("check-shown-largest");
    folder.put("in", &oriented(5, picture(32768, 32767, false, true)));
    let text = folder.run(&["check", "in"]).text(1);
    assert_within_80_columns(&text);
    assert!(text.contains("32,767 as shown; stored 32,768 by 32,767,"));
}

/// The limits, in both directions, under each orientation.
#[test]
fn every_orientation() {
    let folder = Folder::new("check-orientations");
    for orientation in 1..=8u8 {
        for (width, height) in [
            (1920, 1080),
            (1080, 1920),
            (1921, 1080),
            (1080, 1921),
            (1081, 1920),
        ] {
            folder.put(
                "in",
                &oriented(orientation, picture(width, height, false, true)),
            );
            let shown = match orientation {
                1..=4 => (width, height),
                _ => (height, width),
            };
            let fits = (shown.0 <= 1920, shown.1 <= 1080);
            let status = (fits != (true, true)) as i32;
            let json = Json::parse(&folder.run(&["check", "--json", "in"]).text(status));
            assert_eq!(json.at("width_fits"), &Json::Flag(fits.0));
            assert_eq!(json.at("height_fits"), &Json::Flag(fits.1));
            for (name, number) in [
                ("shown_width", shown.0),
                ("shown_height", shown.1),
                ("width", width),
                ("height", height),
                ("orientation", orientation.into()),
            ] {
                assert_eq!(json.at(name), &Json::Number(number.into()), "{name}");
            }
        }
    }
}

/// Each condition alone, by the bytes of the payload: which fail.
#[test]
fn every_condition() {
    let folder = Folder::new("check-conditions");
    let cases = [
        (picture(1920, 1080, false, true), vec![]),
        (picture(1920, 1080, true, true), vec!["integer_samples"]),
        (picture(1920, 1080, false, false), vec!["exif_present"]),
        (picture(1921, 1, false, true), vec!["width_fits"]),
        (picture(1, 1081, false, true), vec!["height_fits"]),
        // 1,920 by 1,080 under the orientation 6.
        (
            everything(1, b""),
            vec!["integer_samples", "no_gain_map", "height_fits"],
        ),
    ];
    for (payload, fails) in cases {
        folder.put("in", &payload);
        let status = !fails.is_empty() as i32;
        let text = folder.run(&["check", "in"]).text(status);
        let failing = |line: &&str| line.starts_with("  fails  ");
        assert_eq!(text.lines().filter(failing).count(), fails.len());
        let json = Json::parse(&folder.run(&["check", "--json", "in"]).text(status));
        assert_eq!(json.at("passes"), &Json::Flag(fails.is_empty()));
        for name in NAMES {
            let holds = !fails.contains(&name);
            assert_eq!(json.at(name), &Json::Flag(holds), "{name}");
        }
        assert_eq!(json.names().len(), 11);
    }
}
