//! Demand 3 by a short search; the program runs longer ones.

use peer::rounds::search;

#[test]
fn nothing_breaks() {
    let report = search(5, 5_000).expect("demand 3 holds");
    assert_eq!(report.histories, 5_000);
    assert_eq!(report.lost + report.through, 5_000);
    // the search must not be empty talk: packets, losses and real waits occur
    assert!(report.lost > 200 && report.through > 2_000);
    assert!(report.high_first > 1_000 && report.high_first < report.through - 1_000);
    assert!(report.packets > 10_000);
    assert!((6..=24).contains(&report.largest));
}
