//! `explain`.

use crate::folder::{Folder, assert_within_80_columns};
use crate::payloads::{ALPHA, FTYP, SMALLEST, TEN, TYPED, boxed, everything, file, picture};

fn explained(name: &str, bytes: &[u8]) -> String {
    let folder = Folder::new(&format!("explain-{name}"));
    folder.put("in", bytes);
    let text = folder.run(&["explain", "in"]).text(0);
    assert_within_80_columns(&text);
    text
}

#[test]
fn alpha() {
    let text = explained("alpha", ALPHA);
    assert_eq!(text, include_str!("expected/explain-alpha.txt"));
}

#[test]
fn a_file_with_everything() {
    let text = explained("everything", &file(FTYP, &everything(600, b"tail")));
    assert_eq!(text, include_str!("expected/explain-everything.txt"));
}

#[test]
fn the_two_orders() {
    let text = explained("orders", &everything(9, b""));
    let tables: Vec<&str> = text.split("THE CHUNKS").skip(1).collect();
    let numbers = |table: &str| -> Vec<u32> {
        let rows = table.lines().filter(|line| line.ends_with('|'));
        rows.filter_map(|row| row.split_whitespace().next()?.parse().ok())
            .collect()
    };
    assert_eq!(numbers(tables[0]), [1, 2, 3, 4, 5, 6, 7, 8, 9, 10, 11]);
    assert_eq!(numbers(tables[1]), [6, 9, 5, 1, 2, 3, 8, 4, 7, 10, 11]);
}

#[test]
fn tiny_chunks_beside_much_main_data_are_seen() {
    let text = explained("huge", &everything(5_000_000, b""));
    let rows: Vec<&str> = text.lines().filter(|l| l.ends_with('|')).collect();
    let drawn = rows.iter().filter(|row| row.contains(['#', '='])).count();
    // Two headings and the chunks twice, none of which is empty, and the header.
    assert_eq!((rows.len(), drawn), (2 + 22 + 1, 22 + 1 + 2));
    assert_eq!(text.matches("|############################|").count(), 2);
}

#[test]
fn what_is_ignored() {
    let ignored = |name: &str, tail: &[u8]| -> String {
        let text = explained(name, &[SMALLEST, tail].concat());
        let mut lines = text.lines();
        lines
            .find(|line| line.starts_with("After"))
            .expect("a line")
            .to_string()
    };
    assert_eq!(
        ignored("0", b""),
        "After the last chunk, 0 bytes are ignored."
    );
    assert_eq!(
        ignored("1", b"x"),
        "After the last chunk, 1 byte is ignored."
    );
    assert_eq!(
        ignored("2", b"xy"),
        "After the last chunk, 2 bytes are ignored."
    );
}

#[test]
fn what_the_shortest_form_saves() {
    let last = |name: &str, bytes: &[u8]| -> String {
        let text = explained(name, bytes);
        let paragraph = text.trim_end().rsplit("\n\n").next().expect("a paragraph");
        paragraph.replace('\n', " ")
    };
    assert_eq!(
        last("ten", TEN),
        "The shortest form that reads the same has 8 bytes: dimensions in 15 bits instead of 31."
    );
    assert_eq!(
        last("smallest", SMALLEST),
        "This is the shortest form: every other payload that reads so is longer."
    );
}

#[test]
fn flags_that_are_set() {
    let set = |name: &str, bytes: &[u8]| -> Vec<String> {
        let text = explained(name, bytes);
        let rows = text.lines().filter(|line| line.contains("  set  "));
        rows.map(|row| row.split_whitespace().collect::<Vec<_>>().join(" "))
            .collect()
    };
    assert_eq!(set("none", SMALLEST), Vec::<String>::new());
    assert_eq!(
        set("types", TYPED),
        ["explicit codec types set explicit codec types: 64 bits, from bit 32"]
    );
    let hdr = b"\x01\0\0\0\0\0\0\0\xAA";
    assert_eq!(set("hdr", hdr), ["hdr set gain map: 1 bit, from bit 32"]);
    assert!(explained("hdr", hdr).contains(" HDR boxes: 6 bits, from bit 33\n"));
    assert_eq!(
        set("float", &picture(1, 1, true, true)),
        [
            "float set sample format: 2 bits, from bit 47",
            "Exif set its size, among the chunk sizes"
        ]
    );
}

/// What is shown of a payload that is refused: the parts that were read, and the place.
fn refused(name: &str, bytes: &[u8]) -> String {
    let folder = Folder::new(&format!("explain-{name}"));
    folder.put("in", bytes);
    let ran = folder.run(&["explain", "in"]);
    assert_eq!(ran.status, 1);
    assert!(ran.err.starts_with("bustardcase: in: refusal "));
    let text = String::from_utf8(ran.out).expect("text");
    assert_within_80_columns(&text);
    text
}

#[test]
fn a_header_that_is_cut() {
    let text = refused("cut", &file(FTYP, &SMALLEST[..5]));
    let expected = "\
The payload has 5 bytes. It is refused; this is what was read of it.
In the file it begins at byte 32; positions here count from the payload's first
byte.

THE HEADER, the high bit of a byte first

   from   bits  part                  what is stored
      0     16  flags                 00000000 00000000
     16     15  dimensions            00000000 0000000
      -      0  chroma centring
     31      1  sample format         0
      -      0  alpha premultiplied
      -      0  explicit cicp
      -      0  explicit codec types
      -      0  gain map
      -      0  HDR boxes
      -      0  tone map HDR boxes
     32      -  chunk sizes           00000|000
                                           ^ refused here

Reading broke off at bit 37: in the part 'chunk sizes', bit 5 of byte 4 of the
payload (byte 36 of the file), 3 bits before the payload ends.
";
    assert_eq!(text, expected);
}

/// Of each refusal in the header, the row of its part and the mark below it.
#[test]
fn bits_that_are_refused() {
    let cases: [(&[u8], &str, &str); 5] = [
        (
            b"\x40\0\0\0",
            "      0      -  flags                 |01000000 00000000 ..",
            "                                      ^ refused here",
        ),
        (
            b"\x10\0\0\x01\x80",
            "     31      -  sample format         |1 10000000",
            "                                      ^ refused here",
        ),
        (
            b"\0\0\0\0\0\0\x01\xAA",
            "     52      -  trailing bits         |0001",
            "                                      ^ refused here",
        ),
        // A body that is cut, 23 bits before the end, behind six flags.
        (
            b"\x01\0\0\0\x40\x11\x22\x33",
            "     33      -  HDR boxes             100000|0 00010001 ..",
            "                                            ^ refused here",
        ),
        // Far into a part, only what is nearby is shown.
        (
            b"\x20\0\0\0av01av1",
            "     32      -  explicit codec types  .. 00110001|01100001 01110110 ..",
            "                                                 ^ refused here",
        ),
    ];
    for (payload, row, mark) in cases {
        let text = refused("bits", payload);
        let mut lines = text.lines().skip_while(|line| *line != row);
        assert!(lines.next().is_some(), "{text}");
        assert_eq!(lines.next(), Some(mark), "{text}");
        assert_eq!(lines.next(), Some(""), "{text}");
        assert!(!text.contains("THE CHUNKS"));
    }
}

#[test]
fn a_chunk_that_is_cut() {
    let text = refused("chunk", b"\0\0\0\0\x10\x75\x50\xC1\xC2\xAA");
    let expected = "\
     52      4  trailing bits         0000

THE CHUNKS in the order in which they lie

   #  chunk                   position     length |0                         10|
      (header)                       0          7 |====================        |
   6  main configuration             7          2 |                    #####   |
   9  alpha configuration            -     absent |                            |
   5  gain-map configuration         -     absent |                            |
   1  ICC                            -     absent |                            |
   2  tone map ICC                   -     absent |                            |
   3  gain-map metadata              -     absent |                            |
   8  alpha data                     -     absent |                            |
   4  gain-map data                  -     absent |                            |
   7  main data                      9       1878 |                         ###|
                                                              refused here ^
  10  Exif                           -     absent |                            |
  11  XMP                            -     absent |                            |

Reading broke off at bit 72: main data would begin at byte 9 of the payload and
has 1,878 bytes, 1,877 are missing.
";
    assert!(text.ends_with(expected), "{text}");
    // No byte of it is there.
    let text = refused("chunk", &SMALLEST[..7]);
    let expected = "
   7  main data                      7          1 |                           .|
                                                                refused here ^
  10  Exif                           -     absent |                            |
  11  XMP                            -     absent |                            |

Reading broke off at bit 56: main data would begin at byte 7 of the payload and
has 1 byte, 1 is missing.
";
    assert!(text.ends_with(expected), "{text}");
}

/// Those after the refused one are not there, though the header has them; an empty one, too.
#[test]
fn chunks_after_the_one_that_is_cut() {
    let text = refused("after", b"\x04\0\0\0\0\0\x20\0\x30\xA1");
    let expected = "
   #  chunk                   position     length |0                         10|
      (header)                       0          9 |=========================   |
   6  main configuration             9          0 |                         .  |
   9  alpha configuration            -     absent |                            |
   5  gain-map configuration         -     absent |                            |
   1  ICC                            -     absent |                            |
   2  tone map ICC                   -     absent |                            |
   3  gain-map metadata              -     absent |                            |
   8  alpha data                     9          3 |                         ###|
                                                              refused here ^
   4  gain-map data                  -     absent |                            |
   7  main data                     12          5 |                   not there|
  10  Exif                           -     absent |                            |
  11  XMP                            -     absent |                            |

Reading broke off at bit 72: alpha data would begin at byte 9 of the payload and
has 3 bytes, 2 are missing.
";
    assert!(text.ends_with(expected), "{text}");
    // A main configuration of seven bytes; the empty alpha data would come after it.
    let text = refused("after", b"\x04\0\0\0\x1C\0\0\0\0\xC1");
    let row = "   8  alpha data                    16 ";
    let mut rows = text.lines().filter(|line| line.starts_with(row));
    let row = rows.next().expect("a row");
    assert!(row.ends_with(" 0 |                   not there|"), "{text}");
}

/// Of the rows of the whole payload, those of the chunks before the cut are the same, but for the scale.
#[test]
fn every_cut_chunk_is_told_as_in_the_whole() {
    let payload = everything(9, b"");
    let places = |text: &str| -> Vec<String> {
        let table = text.rsplit("THE CHUNKS").next().expect("a table");
        let rows = table.lines().filter(|line| line.ends_with('|')).skip(1);
        let places = rows.filter_map(|row| row.split('|').next());
        places.map(str::to_string).collect()
    };
    let whole = places(&explained("whole", &payload));
    let header_len = whole[0].split_whitespace().last().expect("a length");
    let header_len: usize = header_len.parse().expect("a number");
    for len in header_len..payload.len() {
        let text = refused("cut-chunk", &payload[..len]);
        assert_eq!(places(&text), whole, "{text}");
        assert_eq!(text.matches("refused here").count(), 1);
        let after = text.split("refused here").nth(1).expect("a mark");
        let later = after.lines().filter(|line| line.ends_with('|'));
        assert!(later.into_iter().all(|row| row.ends_with(" not there|")));
    }
}

#[test]
fn every_cut_is_told_within_80_columns() {
    let payload = everything(9, b"");
    for len in 0..payload.len() {
        let text = refused("every-cut", &file(FTYP, &payload[..len]));
        assert!(text.contains("Reading broke off at bit "));
    }
}

/// Positions are plain numbers, lengths have commas.
#[test]
fn far_into_a_file() {
    let free = boxed(b"free", &[0; 4_000]);
    let whole = [boxed(b"ftyp", FTYP), free, boxed(b"mini", &SMALLEST[..7])].concat();
    let text = refused("far", &whole);
    assert!(
        text.contains("\nIn the file it begins at byte 4040; positions here count"),
        "{text}"
    );
    assert!(
        text.contains(
            "byte 7 of the payload\n(byte 4047 of the file) and has 1 byte, 1 is missing.\n"
        ),
        "{text}"
    );
}
