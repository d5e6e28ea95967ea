//! Damaged files, and files under other file types than their own.

use super::{Run, expanded, read};
use crate::read::shown;
use oracle::expanding::{self, OriginalType};
use oracle::normal::normal;
use oracle::{changes, damaging, near_types, payloads, restoring};
use upstream::mini::MinimizedImage;

/// How many files, of fewer bytes than `SHORT`, are damaged in every byte, and how many each in a few.
const WHOLE: u64 = 50;
const SHORT: usize = 1_500;
const DAMAGED: u64 = 10_000;

/// How many files are taken under other types.
const OTHER_TYPES: u64 = 20_000;

impl Run {
    pub fn damaged(&mut self) -> Result<(), String> {
        // Every value of every byte, of the smallest file and of one with every chunk.
        let original = self.types[0].clone();
        for plan in [expanding::plain(), payloads::heavy(1)] {
            let file = expanded(&read(&payloads::payload_of(&plan))?, &original)?;
            damaging::every_value(&file, 0..file.len(), &mut |f| {
                self.case(f, &original).map(drop)
            })?;
        }
        for _ in 0..WHOLE {
            let (file, original) = self.short_file()?;
            damaging::every_byte(&file, &mut |f| self.case(f, &original).map(drop))?;
        }
        for _ in 0..DAMAGED {
            self.damaged_at_random()?;
        }
        Ok(())
    }

    fn short_file(&mut self) -> Result<(Vec<u8>, OriginalType), String> {
        loop {
            let original = self.random_type();
            let image = changes::base(&mut self.random);
            let file = expanded(&image, &original)?;
            if file.len() < SHORT {
                return Ok((file, original));
            }
        }
    }

    fn damaged_at_random(&mut self) -> Result<(), String> {
        let original = self.random_type();
        let image = changes::base(&mut self.random);
        let file = expanded(&image, &original)?;
        let other = changes::changed(&mut self.random, &image);
        let other = expanded(&other, &original)?;
        let r = &mut self.random;
        let mut all: Vec<Vec<u8>> = Vec::new();
        for _ in 0..4 {
            all.push(damaging::few_bytes(r, &file));
            all.push(damaging::rebuilt(r, &file));
        }
        all.push(damaging::crossed(r, &file, &other));
        all.push(damaging::crossed(r, &other, &file));
        damaging::lengthened(r, &file, &mut |f| {
            all.push(f.to_vec());
            Ok(())
        })?;
        for damaged in &all {
            self.case(damaged, &original)?;
        }
        Ok(())
    }

    pub fn other_types(&mut self) -> Result<(), String> {
        for _ in 0..OTHER_TYPES {
            let original = self.random_type();
            let image = changes::base(&mut self.random);
            let file = expanded(&image, &original)?;
            let stated = near_types::stated(&file).ok_or("the file states no type")?;
            self.under(&image, &file, &stated)?;
            for base in [&original, &stated] {
                let near = near_types::near(&mut self.random, base);
                self.under(&image, &file, &near)?;
            }
            let other = expanding::random_type(&mut self.random);
            self.under(&image, &file, &other)?;
        }
        Ok(())
    }

    /// The record of a file must be found under a type that gives the same file, and under no other.
    pub fn under(
        &mut self,
        image: &MinimizedImage,
        file: &[u8],
        original: &OriginalType,
    ) -> Result<(), String> {
        let expands = restoring::expands_to(image, original, file);
        let found = self.case(file, original)?;
        match found.map(|found| found.image) == expands.then(|| normal(image)) {
            true => Ok(()),
            false => Err(format!(
                "file {}\nunder {original:?}\nit is the record's: {expands}",
                shown(file)
            )),
        }
    }
}
