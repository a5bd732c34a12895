//! Shortening a case that fails.

/// Drops parts of a failing case, many at a time and then one by one, as long as it still fails.
/// Where that cannot be told, none, it stops.
pub fn shorten<T: Clone>(case: Vec<T>, mut fails: impl FnMut(&[T]) -> Option<bool>) -> Vec<T> {
    let mut case = case;
    let mut many = case.len();
    while many > 0 {
        let mut at = 0;
        while at < case.len() {
            let end = (at + many).min(case.len());
            let shorter = [&case[..at], &case[end..]].concat();
            match fails(&shorter) {
                Some(true) => case = shorter,
                Some(false) => at = end,
                None => return case,
            }
        }
        many /= 2;
    }
    case
}
