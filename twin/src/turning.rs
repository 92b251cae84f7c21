// Where a test turns as one field of a case goes through its limits: cases on
// both sides of a refusal's edge are found so, drawn ones and stored ones.

use crate::rating::{limits, Words};
use crate::sample_cables::with;

/// The case with the lowest value of a field, within its limits, at which a test
/// holds that holds from some value on; nothing where it does not hold at the
/// highest. The field is not a temperature, so that a word is its value.
pub fn first(case: &Words, field: usize, test: impl Fn(&Words) -> bool) -> Option<Words> {
    let at = |value: i64| with(case, &[(field, value as u32)]);
    let (mut low, mut high) = limits(field);
    if !test(&at(high)) {
        return None;
    }
    while low < high {
        let middle = (low + high) / 2;
        if test(&at(middle)) {
            high = middle;
        } else {
            low = middle + 1;
        }
    }
    Some(at(low))
}
