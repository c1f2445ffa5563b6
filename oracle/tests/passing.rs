//! 02's S-6 in the stored sample: draws are passed over in picks and in shuffles of every size that passes over any.
//! The counts are of the whole process, so the test stands alone.

use oracle::passing;

#[test]
fn every_size_is_met() {
    let sample = include_str!("../sample/histories.txt").to_owned();
    if let Err(table) = passing::run(&[sample]) {
        panic!("{table}");
    }
}
