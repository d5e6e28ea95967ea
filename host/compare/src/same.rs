//! When two records give one file: `MinimizedImage::equivalent_file` and `bustardcase_expand` beside the clauses of
//! document 02, point 14. The files of two payloads must be equal exactly where the clauses say so, and exactly where
//! `bustardcase::differences` finds nothing that they carry.

use crate::check::Checker;
use crate::read::shown;
use crate::report::Report;
use bustardcase::{differences, raw};
use oracle::answer::Answer;
use oracle::changes;
use oracle::expanding::{self, OriginalType};
use oracle::pairs::{self, REST, Special};
use oracle::random::Random;
use oracle::records;
use oracle::same::{self, CLAUSES};
use upstream::mini::MinimizedImage;

const SEED: u64 = 0x6275_7374_6172_6435;

/// How many pairs of each special case: of one that gives one file, and of one that gives two.
const ONE_FILE: u64 = 8_000;
const TWO_FILES: u64 = 1_000;

/// How many records are changed, each so many times.
const BASES: u64 = 40_000;
const CHANGES: u64 = 6;

/// How many records each stand beside another one, and beside themselves in another form.
const UNRELATED: u64 = 10_000;

/// How many pairs each clause must decide at least, either way, and one pair of how many must have equal files.
const LEAST: u64 = 3_000;
const LEAST_EQUAL: u64 = 3;

struct Run {
    checker: Checker,
    random: Random,
    types: Vec<OriginalType>,
    pairs: u64,
    /// How many have equal files.
    equal: u64,
    decided: [Decided; CLAUSES.len()],
}

/// How many pairs a clause decides.
#[derive(Clone, Copy, Default)]
struct Decided {
    /// They differ in what it is about, and the files are equal.
    one_file: u64,
    /// It is the only clause that does not allow what differs.
    two_files: u64,
}

/// What the clause named never decides. A record without the hdr flag has neither gain map nor HDR body: where only
/// the flag differs it is free, so more must differ where it is not.
const NEVER_ONE_FILE: &str = "compressed flag";
const NEVER_ALONE: &str = "hdr flag";

/// A record as it was read, by the Rust and by ours, its payload, and what expanding gives.
struct Expanded {
    payload: Vec<u8>,
    image: MinimizedImage,
    ours: bustardcase::MinimizedImage,
    file: Answer,
}

pub fn compare(report: &mut Report) -> Result<(), String> {
    let mut run = Run::new();
    for special in pairs::specials() {
        run.special(&special)?;
    }
    run.tell(report, "special cases");
    run.changed()?;
    run.tell(report, "and records changed in one to three places");
    run.unrelated()?;
    run.tell(report, "and unrelated ones, and other forms of one");
    run.combinations()?;
    run.tell(report, "and every two combinations");
    report.cases = run.pairs;
    run.check_cover(report)
}

impl Run {
    fn new() -> Self {
        Run {
            checker: Checker::new(|at| format!("byte {at} of the file")),
            random: Random::new(SEED),
            types: expanding::allowed_types(),
            pairs: 0,
            equal: 0,
            decided: Default::default(),
        }
    }

    fn special(&mut self, special: &Special) -> Result<(), String> {
        let count = match special.one_file {
            true => ONE_FILE,
            false => TWO_FILES,
        };
        for _ in 0..count {
            let original = self.random_type();
            let [a, b] = special.pair(&mut self.random);
            let (a, b) = (self.expand(&a, &original)?, self.expand(&b, &original)?);
            self.pair(&a, &b, &original)?;
            if (a.file == b.file) != special.one_file || !decides(special, &a.image, &b.image) {
                let Special { clause, name, .. } = special;
                let why = format!("it is not the special case '{clause}: {name}'");
                return Err(difference(&a, &b, &original, &why));
            }
        }
        Ok(())
    }

    fn changed(&mut self) -> Result<(), String> {
        for _ in 0..BASES {
            let original = self.random_type();
            let image = changes::base(&mut self.random);
            let base = self.expand(&image, &original)?;
            for _ in 0..CHANGES {
                let other = changes::changed(&mut self.random, &image);
                let other = self.expand(&other, &original)?;
                self.pair(&base, &other, &original)?;
            }
        }
        Ok(())
    }

    fn unrelated(&mut self) -> Result<(), String> {
        for _ in 0..UNRELATED {
            let original = self.random_type();
            let image = records::random_record(&mut self.random);
            let other = records::random_record(&mut self.random);
            let a = self.expand(&image, &original)?;
            for other in [other, image] {
                let b = self.expand(&other, &original)?;
                self.pair(&a, &b, &original)?;
            }
        }
        Ok(())
    }

    fn combinations(&mut self) -> Result<(), String> {
        let original = OriginalType {
            major: expanding::MIF3,
            minor: 0,
            brands: b"mif3tmap".to_vec(),
        };
        let mut all = Vec::new();
        for image in pairs::combinations() {
            all.push(self.expand(&image, &original)?);
        }
        for (i, a) in all.iter().enumerate() {
            for b in &all[..i] {
                self.pair(a, b, &original)?;
            }
        }
        Ok(())
    }

    fn random_type(&mut self) -> OriginalType {
        expanding::random_allowed_type(&mut self.random, &self.types)
    }

    /// The record must be what a payload reads to. Both files of it must be equal.
    fn expand(
        &mut self,
        image: &MinimizedImage,
        original: &OriginalType,
    ) -> Result<Expanded, String> {
        let form = records::random_form(&mut self.random);
        let payload = records::payload(image, form);
        let file = self.files(image, &payload, original);
        let file =
            file.map_err(|e| format!("payload {}\nunder {original:?}\n{e}", shown(&payload)))?;
        Ok(Expanded {
            ours: bustardcase::read(&payload).map_err(|e| e.to_string())?,
            payload,
            image: image.clone(),
            file,
        })
    }

    fn files(
        &mut self,
        image: &MinimizedImage,
        payload: &[u8],
        original: &OriginalType,
    ) -> Result<Answer, String> {
        let read = MinimizedImage::parse(payload).map_err(|e| e.to_string())?;
        if read != *image {
            return Err(format!("no payload gives {image:?}"));
        }
        let file = expanding::of_record(&read, original)?;
        let Answer::Done(bytes) = &file else {
            return Err(format!("refusal {}", file.number()));
        };
        let OriginalType {
            major,
            minor,
            brands,
        } = original;
        self.checker.call(&file, bytes.len(), |out| {
            raw::expand(payload, *major, *minor, brands, out)
        })?;
        Ok(file)
    }

    /// Both ways.
    fn pair(&mut self, a: &Expanded, b: &Expanded, original: &OriginalType) -> Result<(), String> {
        let equal = a.file == b.file;
        for (a, b) in [(a, b), (b, a)] {
            if same::one_file(&a.image, &b.image) != equal {
                let why = match equal {
                    true => format!("the files are equal, not so {}", refusing(a, b).join(", ")),
                    false => "the files differ, and all that differs in the records is allowed"
                        .to_string(),
                };
                return Err(difference(a, b, original, &why));
            }
            let found = differences(&a.ours, &a.payload, &b.ours, &b.payload);
            if found.iter().any(|d| d.carried) == equal {
                let why = format!("the files are equal: {equal}; ours finds {found:?}");
                return Err(difference(a, b, original, &why));
            }
        }
        self.pairs += 1;
        self.equal += equal as u64;
        self.count(&a.image, &b.image, equal);
        Ok(())
    }

    fn count(&mut self, a: &MinimizedImage, b: &MinimizedImage, equal: bool) {
        if equal {
            for (clause, decided) in CLAUSES.iter().zip(&mut self.decided) {
                decided.one_file += !(clause.same)(a, b) as u64;
            }
            return;
        }
        let mut refusing = CLAUSES
            .iter()
            .enumerate()
            .filter(|(_, c)| !(c.allows)(a, b));
        if let (Some((i, clause)), None) = (refusing.next(), refusing.next()) {
            let alone = clause.name == NEVER_ALONE || same::rest(a, b);
            self.decided[i].two_files += alone as u64;
        }
    }

    fn tell(&self, report: &mut Report, what: &str) {
        report.line(format_args!(
            "{what}: {} pairs, {} with equal files",
            self.pairs, self.equal
        ));
    }

    /// Refuses a run in which a clause decides too few pairs, or too few have equal files.
    fn check_cover(&self, report: &mut Report) -> Result<(), String> {
        report.line(format_args!("{} files", self.checker.calls));
        for (clause, decided) in CLAUSES.iter().zip(self.decided) {
            let Decided {
                one_file,
                two_files,
            } = decided;
            report.line(format_args!(
                "{}: {one_file} pairs give one file, {two_files} two",
                clause.name
            ));
            let least = match clause.name {
                NEVER_ONE_FILE => 0,
                _ => LEAST,
            };
            if one_file < least || two_files < LEAST {
                return Err(format!(
                    "the clause '{}' decides too few pairs",
                    clause.name
                ));
            }
        }
        match self.equal * LEAST_EQUAL < self.pairs {
            false => Ok(()),
            true => Err("too few pairs have equal files".to_string()),
        }
    }
}

/// Whether the clause that a special case names decides it.
fn decides(special: &Special, a: &MinimizedImage, b: &MinimizedImage) -> bool {
    match CLAUSES.iter().find(|clause| clause.name == special.clause) {
        Some(clause) if special.one_file => !(clause.same)(a, b),
        Some(clause) => !(clause.allows)(a, b),
        None => special.clause == REST && !same::rest(a, b),
    }
}

/// The names of what does not allow the records to give one file.
fn refusing(a: &Expanded, b: &Expanded) -> Vec<&'static str> {
    let refusing = CLAUSES.iter().filter(|c| !(c.allows)(&a.image, &b.image));
    let mut names: Vec<&str> = refusing.map(|c| c.name).collect();
    if !same::rest(&a.image, &b.image) {
        names.push(REST);
    }
    names
}

fn difference(a: &Expanded, b: &Expanded, original: &OriginalType, why: &str) -> String {
    format!(
        "payloads {}\n     and {}\nunder {original:?}\n{why}\n{:?}\n{:?}",
        shown(&a.payload),
        shown(&b.payload),
        a.image,
        b.image
    )
}

#[cfg(test)]
mod tests {
    use super::*;

    /// The record, under the first of the listed file types.
    fn expanded(run: &mut Run, image: &MinimizedImage) -> (Expanded, OriginalType) {
        let original = run.types[0].clone();
        let expanded = run.expand(image, &original).expect("it is expanded");
        (expanded, original)
    }

    fn plain_record() -> MinimizedImage {
        pairs::combinations().swap_remove(0)
    }

    #[test]
    fn equal_files_of_records_that_are_not_the_same_are_seen() {
        let mut run = Run::new();
        let (a, original) = expanded(&mut run, &plain_record());
        let (mut b, _) = expanded(&mut run, &plain_record());
        assert!(run.pair(&a, &b, &original).is_ok());
        b.image.orientation = 3;
        let seen = run
            .pair(&a, &b, &original)
            .expect_err("the orientations differ");
        assert!(seen.contains("the files are equal, not so all else\n"));
        b.image = a.image.clone();
        b.image.explicit_cicp = Some((1, 13, 5));
        let seen = run.pair(&a, &b, &original).expect_err("the triples differ");
        assert!(seen.contains("the files are equal, not so colour triple\n"));
    }

    #[test]
    fn files_that_differ_of_records_that_are_the_same_are_seen() {
        let mut run = Run::new();
        let (a, original) = expanded(&mut run, &plain_record());
        let (mut b, _) = expanded(&mut run, &plain_record());
        let Answer::Done(file) = &mut b.file else {
            panic!("it is expanded");
        };
        *file.last_mut().expect("a byte of main data") ^= 1;
        let seen = run.pair(&a, &b, &original).expect_err("the files differ");
        assert!(
            seen.contains("the files differ, and all that differs in the records is allowed\n")
        );
    }

    #[test]
    fn a_record_that_is_outside_is_refused() {
        let mut run = Run::new();
        let original = run.types[0].clone();
        let mut image = plain_record();
        image.exif_xmp_compressed = true;
        let seen = run
            .expand(&image, &original)
            .err()
            .expect("there is neither Exif nor XMP");
        assert!(seen.contains("no payload gives"));
        let mut image = plain_record();
        image.alpha = true;
        let seen = run
            .expand(&image, &original)
            .err()
            .expect("the alpha has no data");
        assert!(seen.ends_with("refusal 12"));
    }

    #[test]
    fn a_special_case_that_is_another_is_seen() {
        for mut special in pairs::specials() {
            special.one_file = !special.one_file;
            let seen = Run::new()
                .special(&special)
                .expect_err("it is the other way");
            assert!(seen.contains(&format!("'{}: {}'", special.clause, special.name)));
        }
    }

    #[test]
    fn the_clause_that_decides_is_counted() {
        let mut run = Run::new();
        let a = plain_record();
        let mut b = a.clone();
        b.hdr = true;
        run.count(&a, &b, true);
        assert_eq!(run.decided[1].one_file, 1);
        b.explicit_cicp = Some((1, 13, 5));
        run.count(&a, &b, false);
        assert_eq!((run.decided[0].two_files, run.decided[1].two_files), (1, 0));
        // All else refuses too.
        b.orientation = 3;
        run.count(&a, &b, false);
        // Two clauses refuse.
        b = a.clone();
        b.explicit_cicp = Some((1, 13, 5));
        b.gain_map = pairs::combinations()
            .into_iter()
            .find_map(|image| image.gain_map);
        b.hdr = true;
        run.count(&a, &b, false);
        assert_eq!((run.decided[0].two_files, run.decided[1].two_files), (1, 0));
        b.explicit_cicp = None;
        run.count(&a, &b, false);
        assert_eq!((run.decided[0].two_files, run.decided[1].two_files), (1, 1));
        let sum = run
            .decided
            .iter()
            .map(|d| d.one_file + d.two_files)
            .sum::<u64>();
        assert_eq!(sum, 3);
    }

    #[test]
    fn too_few_pairs_are_refused() {
        let enough = Decided {
            one_file: LEAST,
            two_files: LEAST,
        };
        let checked = |run: &Run| run.check_cover(&mut Report::new("test"));
        let mut run = Run::new();
        run.decided = [enough; CLAUSES.len()];
        (run.equal, run.pairs) = (1, LEAST_EQUAL);
        assert_eq!(checked(&run), Ok(()));
        run.pairs += 1;
        assert!(checked(&run).is_err());
        run.pairs = 1;
        for (i, clause) in CLAUSES.iter().enumerate() {
            run.decided[i].two_files -= 1;
            assert!(checked(&run).is_err());
            run.decided[i] = enough;
            run.decided[i].one_file -= 1;
            assert_eq!(checked(&run).is_ok(), clause.name == NEVER_ONE_FILE);
            run.decided[i] = enough;
        }
    }
}
