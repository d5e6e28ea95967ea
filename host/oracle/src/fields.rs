//! The names of the bytes of a layout, to say where two differ.

/// The fields of a box header's layout.
pub fn of_box_header(byte: usize) -> String {
    let mut fields = Fields::default();
    fields.add("box_type", 4);
    fields.add("user_type present", 1);
    fields.add("user_type", 16);
    fields.add("start", 8);
    fields.add("payload_start", 8);
    fields.add("payload_len", 8);
    fields.at(byte)
}

/// The fields of a file type's layout.
pub fn of_file_type(byte: usize) -> String {
    let mut fields = Fields::default();
    fields.add("major_brand", 4);
    fields.add("minor_version", 4);
    fields.span("compatible_brands");
    fields.at(byte)
}

/// The fields of the desk check's layout.
pub fn of_check(byte: usize) -> String {
    let mut fields = Fields::default();
    for name in [
        "answer",
        "integers",
        "no gain map",
        "Exif",
        "width",
        "height",
    ] {
        fields.add(name, 1);
    }
    fields.add("width as shown", 4);
    fields.add("height as shown", 4);
    fields.at(byte)
}

/// The fields of an outline's layout.
pub fn of_outline(byte: usize) -> String {
    let mut fields = Fields::default();
    for part in 0..12 {
        fields.add(&format!("end of part {part} of the header"), 8);
    }
    fields.entries("by size");
    fields.entries("as stored");
    fields.add("bytes ignored", 8);
    fields.at(byte)
}

/// The fields of a diagnosis's layout.
pub fn of_diagnosis(byte: usize) -> String {
    let mut fields = Fields::default();
    fields.add("refusal", 1);
    fields.add("bit", 8);
    fields.add("part", 1);
    for part in 0..12 {
        fields.add(&format!("end of part {part} of the header"), 8);
    }
    fields.add("chunk", 1);
    fields.add("length", 8);
    fields.add("missing", 8);
    fields.entries("as stored");
    fields.at(byte)
}

/// The fields of a record's layout.
pub fn of_record(byte: usize) -> String {
    let mut fields = Fields::default();
    fields.add("explicit_codec_types present", 1);
    fields.add("infe type", 4);
    fields.add("config type", 4);
    fields.picture_format("");
    fields.add("full_range", 1);
    fields.chroma("");
    fields.add("orientation", 1);
    fields.add("width", 4);
    fields.add("height", 4);
    fields.add("explicit_cicp present", 1);
    fields.add("explicit_cicp", 3);
    fields.chunk("icc");
    fields.add("alpha", 1);
    fields.add("alpha_premultiplied", 1);
    fields.add("hdr", 1);
    fields.hdr("");
    fields.add("gain_map present", 1);
    fields.gain_map();
    fields.span("main_codec_config");
    fields.span("main_data");
    fields.chunk("alpha_codec_config");
    fields.span("alpha_data");
    fields.add("exif_xmp_compressed", 1);
    fields.chunk("exif");
    fields.chunk("xmp");
    fields.at(byte)
}

/// Names and lengths, in order.
#[derive(Default)]
struct Fields(Vec<(String, usize)>);

impl Fields {
    fn add(&mut self, name: &str, len: usize) {
        self.0.push((name.to_string(), len));
    }

    fn picture_format(&mut self, of: &str) {
        self.add(&format!("{of}format kind"), 1);
        self.add(&format!("{of}format bits"), 1);
    }

    fn chroma(&mut self, of: &str) {
        self.add(&format!("{of}chroma subsampling"), 1);
        self.add(&format!("{of}chroma horizontally_centered"), 1);
        self.add(&format!("{of}chroma vertically_centered"), 1);
    }

    fn span(&mut self, name: &str) {
        self.add(&format!("{name} position"), 8);
        self.add(&format!("{name} length"), 8);
    }

    fn chunk(&mut self, name: &str) {
        self.add(&format!("{name} present"), 1);
        self.span(name);
    }

    fn entries(&mut self, order: &str) {
        for place in 1..=11 {
            self.add(&format!("number of chunk {place} {order}"), 1);
            self.chunk(&format!("chunk {place} {order}"));
        }
    }

    fn hdr(&mut self, of: &str) {
        let bodies = [
            ("clli", 4),
            ("mdcv", 24),
            ("cclv", 37),
            ("amve", 8),
            ("reve", 20),
            ("ndwt", 4),
        ];
        for (name, _) in bodies {
            self.add(&format!("{of}{name} present"), 1);
        }
        for (name, len) in bodies {
            self.add(&format!("{of}{name}"), len);
        }
    }

    fn gain_map(&mut self) {
        self.add("gain map width", 4);
        self.add("gain map height", 4);
        self.add("gain map matrix_coefficients", 1);
        self.add("gain map full_range", 1);
        self.chroma("gain map ");
        self.picture_format("gain map ");
        self.add("tmap_cicp present", 1);
        self.add("tmap_cicp", 3);
        self.add("tmap_cicp full_range", 1);
        self.chunk("tmap_icc");
        self.hdr("tmap ");
        self.span("gain map metadata");
        self.chunk("gain map codec_config");
        self.span("gain map data");
    }

    /// The name of the field that the byte belongs to.
    fn at(&self, byte: usize) -> String {
        let mut end = 0;
        for (name, len) in &self.0 {
            end += len;
            if byte < end {
                return name.clone();
            }
        }
        "after the result".to_string()
    }
}
