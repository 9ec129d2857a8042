//! Shortens a list of events while a difference stays.

/// Takes out pieces, from halves down to single elements, as long as
/// `differs` holds of what is left. Hands back the list as it came if
/// `differs` does not hold of it.
pub fn shrink<T: Clone>(list: &[T], differs: impl Fn(&[T]) -> bool) -> Vec<T> {
    let mut kept = list.to_vec();
    if !differs(&kept) {
        return kept;
    }
    let mut size = kept.len().div_ceil(2);
    while size > 0 {
        let before = kept.len();
        kept = without_pieces(kept, size, &differs);
        // Single elements are tried until none can go; bigger pieces once.
        if size > 1 {
            size = size.div_ceil(2);
        } else if kept.len() == before {
            size = 0;
        }
    }
    kept
}

/// One walk over the list with pieces of one size, from the end: a late event
/// seldom matters to an earlier one.
fn without_pieces<T: Clone>(
    mut kept: Vec<T>,
    size: usize,
    differs: &impl Fn(&[T]) -> bool,
) -> Vec<T> {
    let mut end = kept.len();
    while end > 0 {
        let start = end.saturating_sub(size);
        let shorter = [&kept[..start], &kept[end..]].concat();
        if differs(&shorter) {
            kept = shorter;
        }
        end = start;
    }
    kept
}
