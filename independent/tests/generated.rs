//! What the generator promises.

use independent::desk::transcript;
use independent::report::sheet_of;
use independent::{generator, report};

#[test]
fn files_are_the_same_each_time() {
    for index in 0..500 {
        assert_eq!(generator::file(7, index), generator::file(7, index));
        assert_eq!(generator::day(7, index), generator::day(7, index));
    }
    assert_ne!(generator::file(7, 1), generator::file(8, 1));
}

#[test]
fn every_file_has_a_report_and_every_day_a_transcript() {
    let mut out = [0; 4_096];
    for index in 0..3_000 {
        let length = report(&generator::file(1, index), &mut out).unwrap();
        assert!(out[..length].ends_with(b"\n"), "file {index}");
    }
    for index in 0..300 {
        transcript(&generator::day(1, index));
    }
}

#[test]
fn bench_files_have_a_sheet() {
    for levels in 1..=24 {
        for loads in [0, 1, 7, 63, 64] {
            let sheet = sheet_of(&generator::bench_file(levels, loads));
            assert_eq!(
                sheet.map(|sheet| sheet.rows.len()),
                Ok(levels),
                "{loads} loads"
            );
        }
    }
}
