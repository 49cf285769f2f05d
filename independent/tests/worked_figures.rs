//! The worked figures of the page of rules, and cases worked out by hand from its sentences.

use independent::desk::transcript;
use independent::{report, Short};

const SAMPLE: &str =
    "KIT 0\nLEVELS 2\n100 30 2000 50 52 100\n50 30 1000 50 52 100\nLOADS 0\nCARD 1\n\
                      II B 360 100 20 60 - 20 100 W 110 60\n";
const SAMPLE_SHEET: &str = "SHEET 2 150 2700 PASS\n\
                            1 100 30 1282 2700 270 270 351000 -216000 5000\n\
                            2 50 60 1418 1418 284 554 184340 -113440 5000\n";

fn report_of(file: &[u8]) -> String {
    let mut out = [0; 4_096];
    let length = report(file, &mut out).unwrap();
    assert!(out[length..].iter().all(|byte| *byte == 0));
    String::from_utf8(out[..length].to_vec()).unwrap()
}

fn changed(changes: &[(&str, &str)]) -> String {
    let mut file = SAMPLE.to_string();
    for (old, new) in changes {
        assert_eq!(file.matches(old).count(), 1, "{old}");
        file = file.replace(old, new);
    }
    file
}

/// The first line of the report of the sample order with changes.
fn head(changes: &[(&str, &str)]) -> String {
    let report = report_of(changed(changes).as_bytes());
    report.lines().next().unwrap().to_string()
}

/// The word `index` (counted from 0) of row `level` of a report.
fn field(report: &str, level: usize, index: usize) -> &str {
    report
        .lines()
        .nth(level)
        .unwrap()
        .split(' ')
        .nth(index)
        .unwrap()
}

fn desk(input: &str) -> String {
    String::from_utf8(transcript(input.as_bytes())).unwrap()
}

#[test]
fn sample() {
    assert_eq!(report_of(SAMPLE.as_bytes()), SAMPLE_SHEET);
    assert_eq!(desk(&format!("{SAMPLE}SHEET\n")), SAMPLE_SHEET);
    assert_eq!(desk(SAMPLE), "");
}

#[test]
fn sample_with_a_load() {
    let report = report_of(changed(&[("LOADS 0", "LOADS 1\n2 5")]).as_bytes());
    assert_eq!(field(&report, 0, 3), "2790");
    assert_eq!(field(&report, 1, 4), "2790");
    assert_eq!(field(&report, 2, 4), "1528");
    let input = format!("{SAMPLE}LOAD 2 5\nSHEET\n");
    assert_eq!(desk(&input), format!("LOADED 2 5\n{report}"));
}

#[test]
fn base_shears() {
    for (change, base_shear) in [
        (("II B", "II AA"), "9450"),
        (("60 - 20", "60 10 20"), "2300"),
        (("20 100 W", "20 80 W"), "3375"),
        (("20 100 W", "15 50 W"), "5400"),
    ] {
        let report = report_of(changed(&[change]).as_bytes());
        assert_eq!(field(&report, 0, 3), base_shear, "{change:?}");
    }
}

#[test]
fn limits() {
    let alone = (
        "LEVELS 2\n100 30 2000 50 52 100\n50 30 1000 50 52 100",
        "LEVELS 1\n100 30 2000 50 52 100",
    );
    let single = changed(&[alone]);
    let with = |old: &str, new: &str| {
        assert_eq!(single.matches(old).count(), 1, "{old}");
        report_of(single.replace(old, new).as_bytes())
    };
    let stiff = with("2000 50 52", "200 50 52");
    assert!(stiff.starts_with("SHEET 1 100 1800 PASS\n"));
    assert_eq!(field(&stiff, 1, 5), "1800");
    let soft = with("2000 50 52", "199 50 52");
    assert!(soft.starts_with("SHEET 1 100 1800 FAIL 1 1\n"));
    assert_eq!(field(&soft, 1, 5), "1810");
    for (centre, verdict) in [("70", "PASS"), ("71", "FAIL 1 2")] {
        let file = single.replace("50 52 100", &format!("50 {centre} 100"));
        let file = file.replace("- 20 100", "- 30 100");
        assert_eq!(
            report_of(file.as_bytes()).lines().next().unwrap(),
            format!("SHEET 1 100 1200 {verdict}")
        );
    }
    assert_eq!(head(&[("110 60", "110 50")]), "SHEET 2 150 2700 PASS");
    assert_eq!(head(&[("110 60", "110 49")]), "SHEET 2 150 2700 FAIL 1 4");
    assert!(head(&[("60 - 20", "60 60 20")]).ends_with("PASS"));
    assert_eq!(head(&[("60 - 20", "60 61 20")]), "REFUSED 33 7 7");
}

#[test]
fn loads_and_strikes() {
    assert_eq!(
        head(&[("100 30 2000", "5000 30 2000"), ("LOADS 0", "LOADS 1\n1 1")]),
        "REFUSED 23 6 1"
    );
    assert_eq!(
        head(&[("100 30 2000", "1 30 2000"), ("LOADS 0", "LOADS 1\n1 -1")]),
        "REFUSED 23 6 1"
    );
    let full = changed(&[("LOADS 0\n", &format!("LOADS 64\n{}", "1 1\n".repeat(64)))]);
    let calls = "LOAD 2 3\nSTRIKE\nLOAD 2 3\nTRIAL\nSTRIKE\nSTANDING 2\nSTANDING 3\n";
    let answers =
        "DENIED 24 2\nSTRUCK 1 1\nLOADED 2 3\nON TRIAL\nDENIED 25 0\nSTANDING 2 3\nDENIED 21 3\n";
    assert_eq!(
        desk(&format!("{full}{calls}")),
        format!("{}{answers}", "LOADED 1 1\n".repeat(64))
    );
}

#[test]
fn axes() {
    // 2,700 over 1, 1, 1 has the tails 2,700, 1,800, 900; 1,418 has 1,418, 946 (945.33), 473 (472.67).
    let calls = "AXES 1 1 1 1\nAXES 2 1 1 1\nAXES 3 0\nAXES 1\nAXES 1 1 0 0\n";
    let answers =
        "AXES 2700 900 900 900\nAXES 1418 472 473 473\nDENIED 35 3\nDENIED 36 0\nDENIED 36 2\n";
    assert_eq!(desk(&format!("{SAMPLE}{calls}")), answers);
    let long = "AXES 1".to_string() + &" 1".repeat(32);
    assert_eq!(desk(&format!("{SAMPLE}{long}\n")), "DENIED 36 0\n");
    assert_eq!(
        desk(&format!("{SAMPLE}SHEET\n{long} 1\n")),
        "UNREADABLE 9\n"
    );
}

#[test]
fn refusals_of_files() {
    for (change, told) in [
        (("KIT 0", "KIT 2"), "REFUSED 42 1 0"),
        (("KIT 0", "KIT 00"), "REFUSED 41 1 0"),
        (("LEVELS 2", "LEVELS 25"), "REFUSED 42 2 0"),
        (("LEVELS 2", "LEVELS 1"), "REFUSED 41 4 0"),
        (("LEVELS 2", "LEVELS 3"), "REFUSED 41 5 0"),
        (("LOADS 0", "LOADS 65"), "REFUSED 42 5 0"),
        (("CARD 1", "CARD 0"), "REFUSED 42 6 0"),
        (("CARD 1", "CARD 1 "), "REFUSED 41 6 0"),
        (("W 110", "w 110"), "REFUSED 41 7 0"),
        (("60 -", "60 -5"), "REFUSED 41 7 0"),
        (("60 -", "60 0"), "REFUSED 32 7 7"),
        (("110 60\n", "110 60"), "REFUSED 41 7 0"),
        (("110 60\n", "110 60\nx"), "REFUSED 43 8 0"),
        (("100 30 2000", "1000000000 30 2000"), "REFUSED 41 3 0"),
        (("100 30 2000", "999999999 30 2000"), "REFUSED 12 3 1"),
        (("LOADS 0", "LOADS 1\n3 10"), "REFUSED 21 6 3"),
        (("LOADS 0", "LOADS 1\n2 0"), "REFUSED 22 6 2"),
        (("LOADS 0", "LOADS 1\n2 -"), "REFUSED 41 6 0"),
        (("LOADS 0", "LOADS 1\n2 -0"), "REFUSED 41 6 0"),
    ] {
        assert_eq!(head(&[change]), told, "{change:?}");
    }
    assert_eq!(report_of(b""), "REFUSED 41 1 0\n");
    assert_eq!(report_of(b"KIT 0\n"), "REFUSED 41 2 0\n");
    let none = "KIT 0\nLEVELS 0\nLOADS 0\nCARD 1\nII B 360 100 20 60 - 20 100 W 110 60\n";
    assert_eq!(report_of(none.as_bytes()), "REFUSED 31 0 0\n");
}

#[test]
fn refusals_of_kits() {
    let file = |kit: &str, storeys: &[&str]| {
        let storeys: String = storeys.iter().map(|storey| format!("{storey}\n")).collect();
        let count = storeys.lines().count();
        format!("KIT 1\n{kit}\nLEVELS {count}\n{storeys}LOADS 0\nCARD 1\nII B 360 100 20 60 - 20 100 W 110 60\n")
    };
    let told = |kit: &str, storeys: &[&str]| {
        report_of(file(kit, storeys).as_bytes())
            .lines()
            .next()
            .unwrap()
            .to_string()
    };
    let storey = "50 20 1000 50 52 100";
    let low = "24 50 40 20 9000 50 50 100";
    assert_eq!(told(low, &[storey]), "REFUSED 11 4 25");
    assert_eq!(
        told("23 50 40 20 9000 50 50 100", &[storey, "0 0 0 0 0 0"]),
        "REFUSED 11 5 25"
    );
    assert_eq!(
        told("23 50 40 20 9000 50 50 100", &["0 0 0 0 0 0", storey]),
        "REFUSED 12 4 24"
    );
    assert_eq!(
        told("25 50 40 20 9000 50 50 100", &[storey]),
        "REFUSED 12 2 0"
    );
    assert_eq!(told("1 0 40 20 9000 50 50 100", &[]), "REFUSED 12 2 0");
    assert_eq!(told("10 50 40 51 9000 50 50 100", &[]), "REFUSED 13 2 0");
    assert_eq!(
        told("10 50 40 50 9000 50 50 100", &[storey]),
        "REFUSED 13 4 11"
    );
    assert_eq!(
        told(
            "1 50 40 30 9000 50 50 100",
            &[storey, "50 20 1000 50 101 100"]
        ),
        "REFUSED 12 5 3"
    );
    assert_eq!(
        told("1 50 40 30 9000 50 50 100", &[storey; 9]),
        "REFUSED 42 3 0"
    );
}

#[test]
fn desk_reads_before_it_runs() {
    let bad_frame = changed(&[("100 30 2000", "100 61 2000")]);
    assert_eq!(desk(&format!("{bad_frame}SHEET\n")), "REFUSED 12 3 1\n");
    assert_eq!(desk(&format!("{bad_frame}SHEET \n")), "UNREADABLE 8\n");
    assert_eq!(desk(&format!("{SAMPLE}SHEET")), "UNREADABLE 8\n");
    assert_eq!(desk(&format!("{SAMPLE}\n")), "UNREADABLE 8\n");
    let calls = "KEEP\nTRIAL\nISSUE\nABANDON\nISSUE\nLOAD 1 1\nRELEASE\nREOPEN\nRELEASE\n";
    let answers =
        "OUT OF STATE\nON TRIAL\nOUT OF STATE\nABANDONED\nISSUED\nOUT OF STATE\nRELEASED 2 0 150\n\
                   REOPENED\nOUT OF STATE\n";
    assert_eq!(desk(&format!("{SAMPLE}{calls}")), answers);
    let cards = "CARD I B 571 100 20 60 - 20 100 W 110 60\nSHEET\nAXES 9\n";
    assert_eq!(
        desk(&format!("{SAMPLE}{cards}")),
        "CARD\nDENIED 32 3\nDENIED 32 3\n"
    );
}

#[test]
fn desk_reads_a_mebibyte() {
    const LIMIT: usize = 1 << 20;
    // Lines of five bytes, after as many of six as the division leaves over, end at the limit.
    let long = (LIMIT - SAMPLE.len()) % 5;
    let short = (LIMIT - SAMPLE.len() - 6 * long) / 5;
    let input = SAMPLE.to_string() + &"ISSUE\n".repeat(long) + &"KEEP\n".repeat(short);
    assert_eq!(input.len(), LIMIT);
    let whole = desk(&input);
    assert_eq!(whole.lines().count(), long + short);
    assert_eq!(desk(&(input.clone() + "nonsense")), whole);
    assert_eq!(desk(&(input.clone() + "KEEP\n")), whole);
    let cut = &input[..LIMIT - 5];
    let told = format!("UNREADABLE {}\n", input.lines().count());
    assert_eq!(desk(&format!("{cut}STANDING 1\n")), told);
    assert_eq!(desk(&format!("{cut}ISSUE\n")), told);
}

#[test]
fn short_buffers_stay() {
    let mut out = [7; 4_095];
    assert_eq!(report(SAMPLE.as_bytes(), &mut out), Err(Short));
    assert_eq!(out, [7; 4_095]);
    assert_eq!(report(SAMPLE.as_bytes(), &mut []), Err(Short));
}
