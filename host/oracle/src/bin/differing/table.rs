//! The table of a document.

const SECTION: &str = "## Between us and the Rust";
const HEAD: [&str; 2] = [
    "| the record has | the Rust's box | read again |",
    "|---|---|---|",
];

/// The rows of the document's table must be these, in this order.
pub fn compare(text: &str, rows: &[String]) -> Result<(), String> {
    let found = table(text)?;
    let missing = rows.iter().filter(|row| !found.contains(&row.as_str()));
    let extra = found.iter().filter(|row| !rows.iter().any(|r| r == *row));
    let mut faults: Vec<String> = missing
        .map(|row| format!("this row is missing: {row}"))
        .collect();
    faults.extend(extra.map(|row| format!("this row is not so: {row}")));
    if faults.is_empty() && found != rows {
        faults.push("the rows stand in another order, or one stands twice".to_string());
    }
    match faults.is_empty() {
        true => Ok(()),
        false => Err(faults.join("\n")),
    }
}

/// The rows of the one table with this head in the section.
fn table(text: &str) -> Result<Vec<&str>, String> {
    let lines = text.lines().skip_while(|line| *line != SECTION).skip(1);
    let section: Vec<&str> = lines
        .take_while(|line| !line.starts_with("## "))
        .map(str::trim)
        .collect();
    let heads = section.windows(HEAD.len()).enumerate();
    let mut places = heads.filter(|(_, lines)| *lines == HEAD);
    match (places.next(), places.next()) {
        (Some((at, _)), None) => {
            let rest = section[at + HEAD.len()..].iter();
            Ok(rest
                .take_while(|line| line.starts_with('|'))
                .copied()
                .collect())
        }
        _ => Err(format!(
            "not exactly one table '{}' under '{SECTION}'",
            HEAD[0]
        )),
    }
}

#[cfg(test)]
mod tests {
    use super::*;

    fn document(rows: &[&str]) -> String {
        let table = [&HEAD[..], rows].concat().join("\n   ");
        format!("# Differences\n\n{SECTION}\n\n   {table}\n\nAfter it.\n\n## More\n\n| d |\n")
    }

    fn compared(rows: &[&str]) -> Result<(), String> {
        compare(&document(rows), &["| a |", "| b |"].map(str::to_string))
    }

    #[test]
    fn the_same_rows_pass() {
        assert_eq!(compared(&["| a |", "| b |"]), Ok(()));
    }

    #[test]
    fn every_other_table_is_refused() {
        let missing = Err("this row is missing: | b |".to_string());
        assert_eq!(compared(&["| a |"]), missing);
        let extra = Err("this row is not so: | c |".to_string());
        assert_eq!(compared(&["| a |", "| b |", "| c |"]), extra);
        assert!(compared(&["| a |", "| B |"]).is_err());
        assert!(compared(&["| b |", "| a |"]).is_err());
        assert!(compared(&["| a |", "| a |", "| b |"]).is_err());
        assert!(compared(&[]).is_err());
        assert!(compare("", &[]).is_err());
        let twice = document(&[]).replace("After it.", &HEAD.join("\n"));
        assert!(compare(&twice, &[]).is_err());
    }
}
