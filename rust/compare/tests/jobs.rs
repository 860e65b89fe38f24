//! The job program's cases: that they hold what they must hold.

use compare::jobs;
use std::collections::BTreeMap;

/// The document's input and output.
#[test]
fn the_documents_job() {
    let input = [
        0x53, 0x4d, 0x52, 0x01, 0, 0x02, 0, 0x02, 0, 0, 0, 0, 0, 0x04, 0, 0, 0, 0, 0, 0, 0x80, 0x18, 0x20, 0xa0, 0x7f,
        0, 0, 0x70, 0,
    ];
    assert_eq!(jobs::inputs()[0], input);
    assert_eq!(jobs::text(&input), "done\n0: 0* 131\n1: 0* 126\n");
}

#[test]
fn every_answer_is_among_the_cases() {
    let inputs = jobs::inputs();
    assert!(inputs.len() >= 60);
    let mut answers = BTreeMap::new();
    for input in &inputs {
        let text = jobs::text(input);
        *answers.entry(text.lines().next().unwrap_or_default().to_string()).or_insert(0) += 1;
    }
    println!("{answers:?}");
    assert_eq!(answers.keys().collect::<Vec<_>>(), ["done", "job 1", "job 2", "job 3", "refused 1"]);
    assert!(answers.values().all(|&n| n >= 2), "{answers:?}");
    let longest = inputs.iter().map(Vec::len).filter(|&len| len <= 32_768).max();
    assert_eq!(longest, Some(32_768));
    let texts: Vec<String> = inputs.iter().map(|input| jobs::text(input)).collect();
    assert!(texts.iter().any(|text| text.lines().count() == 8_190), "8,189 rows");
    assert!(texts.iter().any(|text| text.split(' ').count() == 8_193), "8,192 samples");
    assert!(texts.iter().filter(|text| text.contains('*')).count() > 20, "marks");
}

#[test]
fn faults_are_told_in_order() {
    let text = |bytes: &[u8]| jobs::text(bytes);
    assert_eq!(text(&[0; 32_769]), "job 3\n", "too long, before the mark");
    assert_eq!(text(b"XYZ"), "job 2\n", "too short, before the mark");
    assert_eq!(text(b"SMX\x01\x00\x01\x00\x01\x00"), "job 1\n", "the mark, before the table");
    assert_eq!(text(b"SMR\x01\x00\xff\xff\x01\x00"), "job 2\n", "the table, before the samples");
    assert_eq!(text(b"SMR\x01\x00\xff\xff\x01\x00\x00\x00\x00\x00"), "job 3\n", "the samples, before the frame");
    assert_eq!(text(b"SMR\x01\x00\xff\xff\x00\x00"), "refused 1\n");
}
