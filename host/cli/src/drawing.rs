//! Places drawn to scale in text.

/// How many cells stand for the whole payload.
pub const CELLS: usize = 28;

/// A bar for a payload of `total` bytes: `mark` for the `len` bytes from `at`, in one cell at least; where
/// there is no byte, a dot at the place. Both ends are rounded alike, so that neighbours meet.
pub fn bar(total: usize, at: usize, len: usize, mark: char) -> String {
    let first = cell(total, at).min(CELLS - 1);
    let end = cell(total, at.saturating_add(len)).clamp(first + 1, CELLS);
    let (mark, end) = match len {
        0 => ('.', first + 1),
        _ => (mark, end),
    };
    let drawn = |i| if (first..end).contains(&i) { mark } else { ' ' };
    (0..CELLS).map(drawn).collect()
}

/// What stands under a bar to point at a place: an arrow, and the words beside it.
pub fn arrow(total: usize, at: usize, words: &str) -> String {
    let first = cell(total, at).min(CELLS - 1);
    let after = format!("{:first$}^ {words}", "");
    match after.len() <= CELLS {
        true => after,
        false => format!("{:>1$}", format!("{words} ^"), first + 1),
    }
}

/// The boundary between cells that lies nearest to a position. 128 bits hold every product.
fn cell(total: usize, at: usize) -> usize {
    let total = total.max(1) as u128;
    ((2 * at as u128 * CELLS as u128 + total) / (2 * total)) as usize
}

/// A ruler over the bars: 0 at its left end and the payload's length at its right.
pub fn ruler(total: usize) -> String {
    let right = CELLS - 1;
    format!("0{total:>right$}")
}

#[cfg(test)]
mod tests {
    use super::*;

    /// The cells that are marked, as the first and the one after the last.
    fn marked(total: usize, at: usize, len: usize) -> (usize, usize) {
        let bar = bar(total, at, len, '#');
        assert_eq!(bar.len(), CELLS);
        let first = bar.find('#').expect("a mark");
        let end = bar.rfind('#').expect("a mark") + 1;
        assert!(bar[first..end].chars().all(|c| c == '#'));
        (first, end)
    }

    #[test]
    fn a_bar_is_to_scale() {
        assert_eq!(marked(28, 0, 28), (0, 28));
        assert_eq!(marked(28, 3, 2), (3, 5));
        assert_eq!(marked(7, 6, 1), (24, 28));
        assert_eq!(marked(280, 20, 30), (2, 5));
    }

    #[test]
    fn an_arrow_points_at_the_first_cell() {
        assert_eq!(arrow(28, 3, "here"), "   ^ here");
        assert_eq!(arrow(28, 22, "here"), format!("{:22}^ here", ""));
        assert_eq!(arrow(28, 23, "here"), format!("{:18}here ^", ""));
        for at in 0..=280 {
            let arrow = arrow(280, at, "refused here");
            assert!(arrow.len() <= CELLS);
            assert_eq!(arrow.find('^'), bar(280, at, 0, '#').find('.'));
        }
    }

    #[test]
    fn neighbours_meet() {
        assert_eq!(marked(11, 0, 9), (0, 23));
        assert_eq!(marked(11, 9, 1), (23, 25));
        assert_eq!(marked(11, 10, 1), (25, 28));
    }

    #[test]
    fn the_smallest_chunk_is_seen() {
        assert_eq!(marked(800_000_000, 0, 1), (0, 1));
        assert_eq!(marked(800_000_000, 799_999_999, 1), (27, 28));
        assert_eq!(marked(usize::MAX, usize::MAX - 1, 1), (27, 28));
        assert_eq!(bar(10, 10, 0, '#').find('.'), Some(27));
        assert_eq!(bar(28, 5, 0, '#').find('.'), Some(5));
        assert_eq!(bar(0, 0, 0, '#').find('.'), Some(0));
    }
}
