//! The numbers of cases that docs/PROMISES.md names: so many must have run.

/// Each part with the cases that it ran.
pub fn check(text: &str, ran: &[(&str, u64)]) -> Result<(), String> {
    for (part, cases) in ran {
        let named = named(text, part);
        if named.is_empty() {
            return Err(format!(
                "docs/PROMISES.md names no number of cases of '{part}'"
            ));
        }
        if let Some(more) = named.iter().find(|n| *n >= cases) {
            return Err(format!(
                "docs/PROMISES.md has '{part}' run over {more} cases: {cases} ran"
            ));
        }
    }
    Ok(())
}

/// Every N of "`compare PART`, over N"; thousands are separated by commas.
fn named(text: &str, part: &str) -> Vec<u64> {
    let mark = format!("`compare {part}`, over ");
    let rests = text.split(&mark).skip(1);
    let digits = rests.map(|rest| {
        let number = rest.chars().take_while(|c| c.is_ascii_digit() || *c == ',');
        number.filter(char::is_ascii_digit).collect::<String>()
    });
    digits.filter_map(|digits| digits.parse().ok()).collect()
}

#[cfg(test)]
mod tests {
    use super::*;

    const TEXT: &str =
        "| a | `compare read`, over 19,000,000 payloads, each twice; `compare rewrite` |
| b | `compare check`, over 390,000, and `compare check`, over 400 |";

    #[test]
    fn as_many_as_are_named_must_run() {
        assert_eq!(named(TEXT, "read"), [19_000_000]);
        assert_eq!(named(TEXT, "check"), [390_000, 400]);
        assert_eq!(
            check(TEXT, &[("read", 19_000_001), ("check", 390_001)]),
            Ok(())
        );
        assert!(check(TEXT, &[("read", 19_000_000)]).is_err());
        assert!(check(TEXT, &[("read", 19_000_001), ("check", 401)]).is_err());
        assert!(check(TEXT, &[("rewrite", u64::MAX)]).is_err());
    }
}
