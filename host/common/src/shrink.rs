//! The shrinking of a failure.

/// Leaves out of `items` what it can while `fails` stays true: whole stretches first, then single ones.
pub fn shrink<T: Clone>(mut items: Vec<T>, mut fails: impl FnMut(&[T]) -> bool) -> Vec<T> {
    let mut stretch = items.len() / 2;
    while stretch > 0 {
        let mut at = 0;
        let mut shorter = false;
        while at < items.len() {
            let end = (at + stretch).min(items.len());
            let mut rest = items[..at].to_vec();
            rest.extend_from_slice(&items[end..]);
            if fails(&rest) {
                items = rest;
                shorter = true;
            } else {
                at = end;
            }
        }
        if stretch > 1 {
            stretch /= 2;
        } else if !shorter {
            break;
        }
    }
    items
}

/// Then the same within each item: `parts` says what it holds, and `with` is the item with only some of them.
pub fn shrink_within<T: Clone, P: Clone>(
    mut items: Vec<T>,
    parts: impl Fn(&T) -> Vec<P>,
    with: impl Fn(&T, &[P]) -> T,
    mut fails: impl FnMut(&[T]) -> bool,
) -> Vec<T> {
    for at in 0..items.len() {
        let item = items[at].clone();
        let least = shrink(parts(&item), |parts| {
            items[at] = with(&item, parts);
            fails(&items)
        });
        items[at] = with(&item, &least);
    }
    items
}

/// Then makes single items simpler: `simpler` offers what may stand in for one.
pub fn simplify<T: Clone>(
    mut items: Vec<T>,
    simpler: impl Fn(&T) -> Vec<T>,
    mut fails: impl FnMut(&[T]) -> bool,
) -> Vec<T> {
    for at in 0..items.len() {
        for other in simpler(&items[at]) {
            let kept = std::mem::replace(&mut items[at], other);
            if fails(&items) {
                break;
            }
            items[at] = kept;
        }
    }
    items
}

#[cfg(test)]
mod tests {
    use super::*;

    #[test]
    fn a_failure_shrinks_to_what_it_needs() {
        let items: Vec<u32> = (0..100).collect();
        let needs = |items: &[u32]| items.contains(&17) && items.contains(&63);
        assert_eq!(shrink(items, needs), [17, 63]);
        let within = shrink_within(
            vec![vec![1, 2], vec![3, 4]],
            Vec::clone,
            |_, parts| parts.to_vec(),
            |items| items.concat().contains(&4),
        );
        assert_eq!(within, [vec![], vec![4]]);
        let simple = simplify(vec![5, 9], |&item| vec![0, item - 1], |items| items.contains(&9));
        assert_eq!(simple, [0, 9]);
    }
}
