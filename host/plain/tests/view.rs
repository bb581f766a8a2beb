//! The view compared with the oracle's. All other calls are compared in `trials`.

use oracle::arbitrary;
use oracle::record::record_of;
use oracle::rng::Rng;

#[test]
fn the_view_is_the_oracles() {
    let mut rng = Rng::new(1);
    for _ in 0..500 {
        let mut record = record_of(&arbitrary::book(&mut rng, 30));
        if rng.percent(30) {
            arbitrary::damage(&mut rng, &mut record);
        }
        if rng.percent(5) {
            record.truncate(rng.below(record.len()));
        }
        let column = rng.pick(&[0, 1, 5, 63, 64, 255, 256, u32::MAX]);
        let part = plain::view(&record, column);
        assert_eq!(part, oracle::calls::view(&record, column));
        let count = plain::interval_count(&record, column);
        assert_eq!(count, oracle::calls::interval_count(&record, column));
        if count > 0 {
            // It is a part of the record and no copy.
            assert!(record.as_ptr_range().contains(&part.as_ptr()));
        }
    }
}
