//! A directory's room as a bar.

const WIDTH: u64 = 20;

/// A bar with so much used of a total. It is empty only where nothing is used,
/// and full only where nothing is left.
pub fn used(used: u64, total: u64) -> String {
    let total = total.max(1);
    let marks = (used.min(total) * WIDTH + total / 2) / total;
    let marks = marks.clamp(u64::from(used > 0), WIDTH - u64::from(used < total));
    let signs = (0..WIDTH).map(|place| if place < marks { '#' } else { '.' });
    format!("[{}]", signs.collect::<String>())
}

#[cfg(test)]
mod tests {
    use super::*;

    fn marks(amount: u64, total: u64) -> usize {
        let bar = used(amount, total);
        assert_eq!(bar.len(), 22, "{bar}");
        bar.matches('#').count()
    }

    #[test]
    fn bars_tell_empty_and_full_exactly() {
        assert_eq!(marks(0, 1000), 0);
        assert_eq!(marks(1, 1000), 1);
        assert_eq!(marks(500, 1000), 10);
        assert_eq!(marks(999, 1000), 19);
        assert_eq!(marks(1000, 1000), 20);
        assert_eq!(marks(u64::from(u32::MAX), u64::from(u32::MAX)), 20);
        assert_eq!(marks(0, 0), 0);
    }
}
