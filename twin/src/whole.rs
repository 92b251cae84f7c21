// Whole-number arithmetic on u128: the quotient rounded up, the quotient
// rounded down, and the square root rounded down. The stages use nothing else.

/// The whole number next above a/b, or a/b itself. `b` is above 0.
pub fn up(a: u128, b: u128) -> u128 {
    let quotient = a / b;
    if quotient * b == a {
        quotient
    } else {
        quotient + 1
    }
}

/// The whole number next below a/b, or a/b itself. `b` is above 0.
pub fn down(a: u128, b: u128) -> u128 {
    a / b
}

/// The largest whole number whose square is at most `n`.
pub fn square_root(n: u128) -> u128 {
    // The answer is always at or above `low` and below `high`: 2^64 squared
    // is already over every u128. `middle` stays below 2^64, so its square fits.
    let mut low: u128 = 0;
    let mut high: u128 = 1 << 64;
    while high - low > 1 {
        let middle = (low + high) / 2;
        if middle * middle <= n {
            low = middle;
        } else {
            high = middle;
        }
    }
    low
}

#[cfg(test)]
mod tests {
    use super::*;

    #[test]
    fn quotients_round_the_way_they_say() {
        assert_eq!((up(6, 3), up(7, 3), up(8, 3), up(0, 3)), (2, 3, 3, 0));
        assert_eq!((down(6, 3), down(7, 3), down(8, 3), down(0, 3)), (2, 2, 2, 0));
        assert_eq!(up(u128::MAX, 1), u128::MAX);
    }

    #[test]
    fn square_root_is_the_largest_whole_number_that_fits() {
        for n in 0..5000u128 {
            let root = square_root(n);
            assert!(root * root <= n && (root + 1) * (root + 1) > n);
        }
        let top = (1u128 << 64) - 1;
        assert_eq!(square_root(u128::MAX), top);
        assert_eq!(square_root(top * top), top);
        assert_eq!(square_root(top * top - 1), top - 1);
    }
}
