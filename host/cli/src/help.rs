//! What `--help` prints, in 80 columns.

pub const ALL: &str = "\
bustardcase: low-overhead pictures ('mini'), read by a proved library

usage: bustardcase COMMAND ..

  show FILE        every field of the record, and where each chunk lies
  explain FILE     how the payload is put together: the header's bits, what each
                   flag brought, the chunks by size order and as they lie
  check FILE       the desk check: does the display take the picture as it is?
  shrink IN OUT    writes the shortest form that reads the same
  expand IN OUT    writes the equivalent HEIF file
  restore IN OUT   writes the original file of an expanded one
  same A B         do two pictures expand to one file? In what do they differ?

  --json           (show, check, restore, same) prints JSON
  --help           prints this; after a command, what the command does
  --version        prints the version

FILE, IN, A and B are a file with an 'ftyp' and a 'mini' box, or the bare
payload of a 'mini' box; '-' is the standard input. A 'mini' box alone is taken
too. OUT '-' is the standard output. The IN of 'restore' is an expanded file.

A picture that cannot be read or written gets one line on the standard error:
the number of the refusal and its meaning, and for a payload that cannot be read
the bit at which reading broke off, the part of the header or the chunk there,
and the byte in the payload and in the file. docs/ABI.md lists the refusals. OUT
is then as it was before.

A file that is cut inside its 'mini' box is refused with 3, before its payload
is read, and no bit is told. The bytes after the box's header, given alone, are
read as a payload.

exit status:  0  done; check or same says yes
              1  the picture is refused; check or same says no
              2  wrong usage, or a file that cannot be read or written; of same,
                 a refused picture too
";

pub const SHOW: &str = "\
usage: bustardcase show [--json] FILE

Prints every field of the record that the payload reads to, one to a line, and
of each chunk the position and the length. Positions count from the payload's
first byte; for a file, 'payload_position' says where in the file that is.
An absent field or chunk is 'none'. 'orientation_meaning' has the orientation in
words. 'width' and 'height' are as stored, 'shown_width' and 'shown_height' as
shown: the orientations 5 to 8 turn the picture by a quarter and exchange them.

FILE   a file with an 'ftyp' and a 'mini' box, or a bare payload; '-' is the
       standard input

--json prints one JSON object with the same names: numbers as numbers, flags as
true and false, what is absent as null, four-character codes as strings, the
bodies of HDR boxes in hexadecimal, chunks as objects of position and length. A
refused picture gives an object with the one name 'refusal': its 'number' and
'meaning'; where reading broke off, the 'bit', the 'byte' of the payload and the
'file_byte', null for a bare payload, and the 'part', of the header or a chunk;
for a chunk its 'length' and how many bytes of it are 'missing'.

exit status:  0 read, 1 refused, 2 wrong usage or a file that cannot be read
";

pub const EXPLAIN: &str = "\
usage: bustardcase explain FILE

Shows how the payload is put together, for people who learn the format:

- the parts of the header, with the bits of each;
- each optional flag, and what it brought into the header;
- the chunks in the order in which their sizes are given, and again in the order
  in which they lie, drawn to scale: the two orders are not the same;
- how many bytes after the last chunk are ignored.

Of a payload that is refused it shows the parts of the header that were read,
and marks the bit at which reading broke off. Where that is in no part of the
header, it shows the chunks as they lie, and marks the one that ends past the
payload; of those after it nothing is there.

FILE   a file with an 'ftyp' and a 'mini' box, or a bare payload; '-' is the
       standard input

exit status:  0 read, 1 refused, 2 wrong usage or a file that cannot be read
";

pub const CHECK: &str = "\
usage: bustardcase check [--json] FILE

The desk check: does the display take the picture as it is? Prints yes or no,
and of each of the five conditions whether it holds or fails: the samples are
integers, there is no gain map, Exif is present, the width is at most 1,920 and
the height at most 1,080. Width and height are those of the picture as shown:
the orientations 5 to 8 turn it by a quarter and exchange the stored ones. Where
the size as shown isn't the stored one, both are printed.

FILE   a file with an 'ftyp' and a 'mini' box, or a bare payload; '-' is the
       standard input

--json prints one JSON object: 'passes' and the five conditions, as true and
false; 'shown_width' and 'shown_height'; 'width', 'height' and 'orientation' as
stored. A refused picture gives an object with the one name 'refusal', as 'show'
does.

exit status:  0 yes, 1 no or refused, 2 wrong usage or a file that cannot be
              read
";

pub const SHRINK: &str = "\
usage: bustardcase shrink IN OUT

Writes the picture in its shortest form: it reads to the same record, and every
other payload that does is longer.

IN     a file with an 'ftyp' and a 'mini' box, or a bare payload; '-' is the
       standard input
OUT    of the same kind as IN. For a bare payload, the shortest payload. For a
       file, the file with its 'mini' box replaced by the shortest one; all
       other bytes stay as they are. OUT may be IN; '-' is the standard output

OUT is written beside and renamed: on a failure it is as it was before.

exit status:  0 written, 1 refused, 2 wrong usage or a file that cannot be read
              or written
";

pub const EXPAND: &str = "\
usage: bustardcase expand IN OUT [--major M] [--minor N] [--brands A,B]

Writes the equivalent HEIF file: 'ftyp', 'meta' and 'mdat'. The picture must
have explicit codec types.

IN     a file with an 'ftyp' and a 'mini' box, or a bare payload; '-' is the
       standard input
OUT    the HEIF file. OUT may be IN; '-' is the standard output

The new file's type follows from the original one, which for a file is its own.
For a bare payload it has major brand mif3, minor version 0 and one compatible
brand, mif3. Each option takes the place of one part of it:

--major M      the major brand, four characters; \\xNN stands for any byte
--minor N      the minor version: a number, hexadecimal after 0x, or four
               characters of which the first is a letter, as avif
--brands A,B   the compatible brands, of four characters each, at most 1,024;
               '' is none, and \\x2c a comma in a brand

OUT is written beside and renamed: on a failure it is as it was before.

exit status:  0 written, 1 refused, 2 wrong usage or a file that cannot be read
              or written
";

pub const RESTORE: &str = "\
usage: bustardcase restore [--json] IN OUT [--major M] [--minor N]
                           [--brands A,B]

Writes the original file of an expanded one, for archives whose originals are
gone: an 'ftyp' and a 'mini' box. Expanding OUT gives IN again, byte for byte,
and no 'mini' box that does is shorter. A file that none expands to, such as one
that other software made, is refused with 17.

IN     a file that 'expand' wrote; '-' is the standard input
OUT    the original file, not IN; '-' is the standard output

IN tells the type of the original file only in part. Tried in turn are major
brand mif3 with the minor version that gives the major brand of IN, such as
avif or heic, 0 for mif3, vvi3 too for vvic; and the brands that IN lists, less
up to three at the end, which 'expand' may have added, lists with mif3 first;
last the major brand of IN with minor version 0 and all of its brands. The first
type that fits is taken. It is printed on the standard error, and so are the
others that fit, as the options that give them. Where none fits, no file type
does. Each option takes the place of one part; beside another major brand than
mif3 the minor version makes no difference, and 0 is taken; where all three are
given, nothing is tried or printed:

--major M      the major brand, four characters; \\xNN stands for any byte
--minor N      the minor version: a number, hexadecimal after 0x, or four
               characters of which the first is a letter, as avif
--brands A,B   the compatible brands, of four characters each, at most 1,024;
               '' is none, and \\x2c a comma in a brand

OUT is written beside and renamed: on a failure it is as it was before.

--json prints one JSON object, before OUT is written: 'file_type', the one
taken, and 'others', a list of those that fit too. A refused file gives an
object with the one name 'refusal': its 'number' and 'meaning', and 'fitting', a
list of the types that fit without the options.

exit status:  0 written, 1 refused, 2 wrong usage or a file that cannot be read
              or written
";

pub const SAME: &str = "\
usage: bustardcase same [--json] A B [--major M] [--minor N] [--brands X,Y]

Do two pictures expand to one file? Both are expanded, as 'expand' does it, and
the files compared byte by byte. Prints yes or no, then the fields in which the
records differ, under the names of 'show': the value in A, a bar, the value in
B. Of a chunk it is the length, and for equal lengths the first byte, counted
from 0, at which they differ. Long forms where short ones would do, and bytes
after the last chunk, are no part of a record and make no difference.

Some differences are in no expanded file, such as whether colours are given or
inferred. They are printed last. Whichever file is kept, they are lost when A
and B are deleted.

A, B   each a file with an 'ftyp' and a 'mini' box, or a bare payload; '-', for
       one of them, is the standard input

Each is expanded under its own file type. For a bare payload that has major
brand mif3, minor version 0 and one compatible brand, mif3. Each option takes
the place of one part of it, in both; all three give both one type:

--major M      the major brand, four characters; \\xNN stands for any byte
--minor N      the minor version: a number, hexadecimal after 0x, or four
               characters of which the first is a letter, as avif
--brands X,Y   the compatible brands, of four characters each, at most 1,024;
               '' is none, and \\x2c a comma in a brand

If A and B have different types, those of the expanded files may differ too, and
are then printed as 'file_type'. The answer is no. Where the files would be
equal under one type, the last line is:

  under one file type they expand to one file

--json prints one JSON object:

same        true or false
fields      a list of objects: 'name'; 'a' and 'b', the values as 'show' has
            them; 'carried', whether the expanded files have the difference; for
            chunks of equal length 'first_difference'
file_type   null, or an object: 'a' and 'b', the types of the expanded files;
            'only_difference', whether the files would be equal under one type

A refused picture gives an object with the one name 'refusal', as 'show' does;
its 'file' is a or b. A is tried first.

exit status:  0 yes, 1 no; 2 no answer: a picture is refused, wrong usage, or a
              file that cannot be read
";
