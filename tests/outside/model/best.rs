//! The best interval of a list of changes within 0..limit, found twice: among the changes, and by trying every site.

/// A slope change: where it lies, and the weight with its sign.
#[derive(Clone, Copy)]
pub struct Change {
    pub at: i64,
    pub weight: i64,
}

/// Limits up to this one are tried site by site as well, and the two must agree.
const SITES_TRIED: i64 = 48;

pub fn interval(changes: &[Change], limit: i64) -> (i64, i64) {
    let found = by_changes(changes, limit);
    if limit <= SITES_TRIED {
        assert_eq!(found, by_sites(changes, limit), "the model's two best intervals differ");
    }
    found
}

/// Cost up to a constant: what each change adds on its side.
fn cost(changes: &[Change], y: i64) -> i64 {
    let side = |change: &Change| if change.weight > 0 { y - change.at } else { change.at - y };
    changes.iter().map(|change| change.weight.abs() * side(change).max(0)).sum()
}

pub fn by_sites(changes: &[Change], limit: i64) -> (i64, i64) {
    let costs: Vec<i64> = (0..=limit).map(|y| cost(changes, y)).collect();
    let least = costs.iter().min();
    let first = costs.iter().position(|cost| Some(cost) == least);
    let last = costs.iter().rposition(|cost| Some(cost) == least);
    (first.unwrap_or(0) as i64, last.unwrap_or(0) as i64)
}

/// l is the first of the limits and changes from which the cost does not fall to the right; r the last to which it does
/// not rise from the left. Walking right, passing a change adds its weight to the slope, whatever its sign was.
pub fn by_changes(changes: &[Change], limit: i64) -> (i64, i64) {
    let mut sorted = changes.to_vec();
    sorted.sort_by_key(|change| change.at);
    let mut slope: i64 = changes.iter().map(|change| change.weight.min(0)).sum();
    let (mut left, mut right) = (None, 0);
    let mut passed = 0;
    let inner = sorted.iter().map(|change| change.at).filter(|at| 0 < *at && *at < limit);
    let mut candidates: Vec<i64> = std::iter::once(0).chain(inner).chain(std::iter::once(limit)).collect();
    candidates.dedup();
    for y in candidates {
        while passed < sorted.len() && sorted[passed].at < y {
            slope += sorted[passed].weight.abs();
            passed += 1;
        }
        if slope <= 0 {
            right = y;
        }
        while passed < sorted.len() && sorted[passed].at <= y {
            slope += sorted[passed].weight.abs();
            passed += 1;
        }
        if slope >= 0 && left.is_none() {
            left = Some(y);
        }
    }
    (left.unwrap_or(limit), right)
}
