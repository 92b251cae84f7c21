// The 36 cables whose rating IEC 60502-2 prints: the whole-number rating and
// the floating one must lie within the tolerance the file gives.

use twin::published::published;
use twin::rating::rate;
use twin::standard::Cable;

#[test]
fn ratings_lie_within_their_tolerance() {
    let mut count = 0;
    let mut largest = 0f64;
    for published in published() {
        let rated = rate(&published.case);
        assert_eq!(rated.answer, 0, "{}", published.name);
        let whole = f64::from(rated.rating) / 1000.0;
        let percent = 100.0 * (whole / published.amperes - 1.0).abs();
        assert!(percent <= published.tolerance, "{}: {whole} A", published.name);
        let float = Cable::from_fields(&published.case).rating();
        assert!(float >= whole && float - whole < 0.001 + 1e-8 * float, "{}", published.name);
        largest = largest.max(percent);
        count += 1;
    }
    assert_eq!(count, 36);
    println!("36 published ratings, largest difference {largest:.2} %");
}
