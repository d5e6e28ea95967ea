//! The fields of a record, and which of them differ after writing and reading.

use oracle::reading::hdr_bodies;
use oracle::refusal::{PLACES, of_parse};
use upstream::mini::{MiniChroma, MiniGainMap, MiniHdrBoxes, MinimizedImage, SampleFormat};

/// What reading a written box gives: nothing where it is the same record, else the fields that differ, or
/// the refusal.
pub fn read_again(image: &MinimizedImage, boxed: &[u8]) -> Result<Option<String>, String> {
    let payload = boxed.get(8..).ok_or("a box has a header of eight bytes")?;
    let read = match MinimizedImage::parse(payload) {
        Ok(read) if read == *image => return Ok(None),
        Ok(read) => read,
        Err(error) => {
            let place = PLACES[of_parse(&error)?];
            return Ok(Some(format!(
                "refused with {} at {}",
                place.number, place.name
            )));
        }
    };
    let differing = differing(image, &read);
    match differing.is_empty() {
        true => Err("the records differ, and none of their fields does".to_string()),
        false => Ok(Some(differing.join("; "))),
    }
}

fn differing(written: &MinimizedImage, read: &MinimizedImage) -> Vec<String> {
    let [written, read] = [written, read].map(fields);
    let absent = "absent".to_string();
    let value = |fields: &Fields, name: &str| {
        let found = fields.0.iter().find(|(n, _)| n == name);
        found.map_or(absent.clone(), |(_, value)| value.clone())
    };
    let mut names: Vec<&String> = written.0.iter().map(|(name, _)| name).collect();
    // Those of a gain map that only the other record has.
    let others = read.0.iter().map(|(name, _)| name);
    names.extend(others.filter(|name| written.0.iter().all(|(n, _)| n != *name)));
    let told = |name: &String| {
        let [was, is] = [&written, &read].map(|fields| value(fields, name));
        (was != is).then(|| format!("{name} is {is}, not {was}"))
    };
    names.into_iter().filter_map(told).collect()
}

/// Names and values, in the order of the record.
struct Fields(Vec<(String, String)>);

impl Fields {
    fn add(&mut self, name: &str, value: impl ToString) {
        self.0.push((name.to_string(), value.to_string()));
    }

    fn format(&mut self, name: &str, format: SampleFormat) {
        let kind = if format.is_float() {
            "float"
        } else {
            "integer"
        };
        self.add(name, format!("{kind} of {} bits", format.bits()));
    }

    fn chroma(&mut self, of: &str, chroma: &MiniChroma) {
        let MiniChroma {
            subsampling,
            horizontally_centered,
            vertically_centered,
        } = chroma;
        self.add(&format!("{of}subsampling"), subsampling);
        self.add(&format!("{of}horizontally_centered"), horizontally_centered);
        self.add(&format!("{of}vertically_centered"), vertically_centered);
    }

    fn hdr(&mut self, of: &str, hdr: &MiniHdrBoxes) {
        let names = ["clli", "mdcv", "cclv", "amve", "reve", "ndwt"];
        for (name, body) in names.into_iter().zip(hdr_bodies(hdr)) {
            self.add(&format!("{of}{name}"), optional(body));
        }
    }

    fn gain_map(&mut self, gain_map: &MiniGainMap) {
        let MiniGainMap {
            width,
            height,
            matrix_coefficients,
            full_range,
            chroma,
            format,
            tmap_cicp,
            tmap_icc,
            tmap_hdr,
            metadata,
            codec_config,
            data,
        } = gain_map;
        self.add("gain_map.width", width);
        self.add("gain_map.height", height);
        self.add("gain_map.matrix_coefficients", matrix_coefficients);
        self.add("gain_map.full_range", full_range);
        self.chroma("gain_map.", chroma);
        self.format("gain_map.format", *format);
        self.add("tmap_cicp", format!("{tmap_cicp:?}"));
        self.add("tmap_icc", optional(tmap_icc.as_deref()));
        self.hdr("tmap_hdr.", tmap_hdr);
        self.add("gain_map.metadata", bytes(metadata));
        self.add("gain_map.codec_config", optional(codec_config.as_deref()));
        self.add("gain_map.data", bytes(data));
    }
}

/// Every field: the compiler says so where one is left out.
fn fields(image: &MinimizedImage) -> Fields {
    let MinimizedImage {
        explicit_codec_types,
        format,
        full_range,
        chroma,
        orientation,
        width,
        height,
        explicit_cicp,
        icc,
        alpha,
        alpha_premultiplied,
        hdr,
        hdr_boxes,
        gain_map,
        main_codec_config,
        main_data,
        alpha_codec_config,
        alpha_data,
        exif_xmp_compressed,
        exif,
        xmp,
    } = image;
    let mut fields = Fields(Vec::new());
    fields.add("explicit_codec_types", format!("{explicit_codec_types:?}"));
    fields.format("format", *format);
    fields.add("full_range", full_range);
    fields.chroma("", chroma);
    fields.add("orientation", orientation);
    fields.add("width", width);
    fields.add("height", height);
    fields.add("explicit_cicp", format!("{explicit_cicp:?}"));
    fields.add("icc", optional(icc.as_deref()));
    fields.add("alpha", alpha);
    fields.add("alpha_premultiplied", alpha_premultiplied);
    fields.add("hdr", hdr);
    fields.hdr("", hdr_boxes);
    if let Some(gain_map) = gain_map {
        fields.gain_map(gain_map);
    }
    fields.add("main_codec_config", bytes(main_codec_config));
    fields.add("main_data", bytes(main_data));
    fields.add(
        "alpha_codec_config",
        optional(alpha_codec_config.as_deref()),
    );
    fields.add("alpha_data", bytes(alpha_data));
    fields.add("exif_xmp_compressed", exif_xmp_compressed);
    fields.add("exif", optional(exif.as_deref()));
    fields.add("xmp", optional(xmp.as_deref()));
    fields
}

fn optional(chunk: Option<&[u8]>) -> String {
    chunk.map_or("absent".to_string(), bytes)
}

/// Hexadecimal bytes as the documents write them.
pub fn bytes(bytes: &[u8]) -> String {
    let digits: Vec<String> = bytes.iter().map(|b| format!("{b:02X}")).collect();
    match digits.is_empty() {
        true => "empty".to_string(),
        false => format!("`{}`", digits.join(" ")),
    }
}
