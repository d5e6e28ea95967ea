//! Files of records that a payload gives.

use super::{Run, expanded, read};
use oracle::expanding::{self, OriginalType};
use oracle::normal::{self, normal};
use oracle::restoring::Restored;
use oracle::{changes, pairs, payloads, records, same};
use upstream::mini::MinimizedImage;

/// How many records: of each special case of point 14, with as many changed in a few places, of any kind, and near the
/// limits of the short forms.
const SPECIAL: u64 = 200;
const BASES: u64 = 30_000;
const RECORDS: u64 = 20_000;
const NEAR_LIMIT: u64 = 10_000;

impl Run {
    pub fn records(&mut self) -> Result<(), String> {
        for special in pairs::specials() {
            for _ in 0..SPECIAL {
                for image in special.pair(&mut self.random) {
                    self.record(&image)?;
                }
            }
        }
        for image in pairs::combinations() {
            self.record(&image)?;
        }
        for _ in 0..BASES {
            let image = changes::base(&mut self.random);
            self.record(&image)?;
            let other = changes::changed(&mut self.random, &image);
            self.record(&other)?;
        }
        for _ in 0..RECORDS {
            let image = records::random_record(&mut self.random);
            self.record(&image)?;
        }
        for _ in 0..NEAR_LIMIT {
            let image = self.near_limit();
            self.record(&image)?;
        }
        // Every listed file type, with a gain map and without.
        for plan in [payloads::heavy(3), expanding::plain()] {
            let image = read(&payloads::payload_of(&plan))?;
            for i in 0..self.types.len() {
                let original = self.types[i].clone();
                self.record_under(&image, &original)?;
            }
        }
        Ok(())
    }

    /// A record with a number near the limit of its short form.
    fn near_limit(&mut self) -> MinimizedImage {
        loop {
            let mut plan = expanding::random_plan(&mut self.random);
            payloads::put_near_limit(&mut self.random, &mut plan);
            let is_uuid = plan.types.is_none_or(|types| types.contains(b"uuid"));
            if plan.is_sound()
                && !is_uuid
                && let Ok(image) = read(&payloads::payload_of(&plan))
            {
                return image;
            }
        }
    }

    /// A record that a payload gives, under a random file type.
    fn record(&mut self, image: &MinimizedImage) -> Result<(), String> {
        let original = self.random_type();
        self.record_under(image, &original)
    }

    fn record_under(
        &mut self,
        image: &MinimizedImage,
        original: &OriginalType,
    ) -> Result<(), String> {
        let file = expanded(image, original)?;
        let found = self.case(&file, original)?;
        self.features.count(image, Some(original));
        self.normal_form(image, found)
            .map_err(|e| format!("{image:?}\nunder {original:?}\n{e}"))
    }

    /// What is found must be the normal form of the record, which has no longer payload.
    fn normal_form(
        &mut self,
        image: &MinimizedImage,
        found: Option<Restored>,
    ) -> Result<(), String> {
        let found = found.ok_or("no record is found")?.image;
        for (count, changed) in self.changed.iter_mut().zip(normal::changed_by(image)) {
            *count += changed as u64;
        }
        if found != normal(image) || !same::one_file(image, &found) {
            return Err(format!(
                "it is not the normal form that is found: {found:?}"
            ));
        }
        let (shortest, own) = (written_len(&found)?, written_len(image)?);
        self.shorter += (shortest < own) as u64;
        match shortest <= own {
            true => Ok(()),
            false => Err("what is found has a longer payload".to_string()),
        }
    }

    /// Each chunk as long as can be, and with one byte more.
    pub fn greatest(&mut self) -> Result<(), String> {
        let original = self.types[0].clone();
        for (i, plan) in expanding::greatest_plans().iter().enumerate() {
            let mut image = read(&payloads::payload_of(plan))?;
            let found = self.case(&expanded(&image, &original)?, &original)?;
            if found.is_none_or(|found| found.image != normal(&image)) {
                return Err(format!("the record of the greatest plan {i} is not found"));
            }
            self.features.count(&image, Some(&original));
            // Dimensions that are too great are in `outside`.
            let Some(chunk) = longest(&mut image) else {
                continue;
            };
            chunk.push(0);
            let longer = expanded(&image, &original)?;
            if self.case(&longer, &original)?.is_some() {
                return Err(format!(
                    "a record is found with a byte more than the greatest plan {i}"
                ));
            }
        }
        Ok(())
    }
}

/// The length of the record's shortest box.
fn written_len(image: &MinimizedImage) -> Result<usize, String> {
    let boxed = image.to_box().map_err(|e| e.to_string())?;
    Ok(boxed.len())
}

/// The chunk that is as long as can be.
fn longest(image: &mut MinimizedImage) -> Option<&mut Vec<u8>> {
    let (metadata, config, data) = (1 << 20, (1 << 12) - 1, (1 << 28) - 1);
    let gain_map = image.gain_map.as_mut()?;
    let chunks = [
        (image.icc.as_mut(), metadata),
        (gain_map.tmap_icc.as_mut(), metadata),
        (Some(&mut gain_map.metadata), metadata - 1),
        (image.exif.as_mut(), metadata),
        (image.xmp.as_mut(), metadata),
        (Some(&mut image.main_codec_config), config),
        (image.alpha_codec_config.as_mut(), config),
        (gain_map.codec_config.as_mut(), config),
        (Some(&mut image.main_data), data + 1),
        (Some(&mut image.alpha_data), data),
        (Some(&mut gain_map.data), data),
    ];
    let mut chunks = chunks.into_iter();
    chunks.find_map(|(chunk, len)| chunk.filter(|chunk| chunk.len() == len))
}

#[cfg(test)]
mod tests {
    use super::super::tests::smallest;
    use super::*;

    #[test]
    fn a_record_that_is_not_the_normal_form_is_seen() {
        let mut run = Run::new();
        let (_, _, found) = smallest(&run);
        let image = found.image.clone();
        assert_eq!(run.normal_form(&image, Some(found.clone())), Ok(()));
        assert!(run.normal_form(&image, None).is_err());
        let mut longer = found;
        longer.image.hdr = true;
        let seen = run
            .normal_form(&image, Some(longer))
            .expect_err("it is longer");
        assert!(seen.starts_with("it is not the normal form"));
    }

    #[test]
    fn the_longest_chunk_is_the_one_of_the_plan() {
        let lens = expanding::greatest_plans().into_iter().filter_map(|plan| {
            if plan.main_data > 1 << 20 {
                return None;
            }
            let mut image = read(&payloads::payload_of(&plan)).expect("a sound plan");
            longest(&mut image).map(|chunk| chunk.len())
        });
        let lens: Vec<usize> = lens.collect();
        assert_eq!(lens.iter().filter(|len| **len >= (1 << 20) - 1).count(), 7);
        assert_eq!(lens.iter().filter(|len| **len == 4_095).count(), 3);
    }
}
