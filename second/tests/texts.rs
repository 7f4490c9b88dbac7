//! What is printed: the survey, sheets as people write them, and the question stream with its faults.

use second::cases::{broken_streams, most_dangers, random, stored, KINDS};
use second::making::any_sheet;
use second::notation::{parse, show};
use second::questions::Question;
use second::random::Random;
use second::reader::read;
use second::stream::{answers, write};
use second::survey::survey;

const EXAMPLE: [u8; 32] = [
    0x01, 0x00, 0x04, 0x01, 0x02, 0x00, 0x01, 0x02, 0x00, 0x08, 0x00, 0x02, 0x01, 0x00, 0x00, 0x02, 0x00, 0x00, 0x02,
    0x00, 0x08, 0x01, 0x02, 0x01, 0x00, 0x00, 0x02, 0x00, 0x00, 0x7F, 0x00, 0x00,
];

#[test]
fn survey_of_document_01() {
    let due = "jobs 2 objects 1\ndanger 1 1 2 2 : 2\ndangers 1\nlowest SI SI\nasked 4\n";
    assert_eq!(survey(&EXAMPLE), due);
    assert_eq!(survey(&[1, 0, 4, 1, 0, 0, 0, 0x7F, 0, 0]), "jobs 0 objects 0\ndangers 0\nlowest\nasked 0\n");
    assert_eq!(survey(&[]), "refused 1 at 0\n");
    assert_eq!(survey(&[1, 0, 4, 1, 40, 0, 0]), "refused 5 at 4\n");
    assert_eq!(survey(&most_dangers().bytes()).lines().count(), 246_016 + 4);
}

#[test]
fn notation_goes_both_ways() {
    let mut random = Random::new(31);
    for _ in 0..2000 {
        let sheet = any_sheet(&mut random);
        assert_eq!(parse(&show(&sheet)), Ok(sheet.clone()));
        assert_eq!(read(&sheet.bytes()), Ok(sheet));
    }
    for text in [":", ": : objects 7", "RC SI : R0 W1 | R1 W0", "SSI : W4095", "RC : R0 : objects 4096"] {
        assert_eq!(show(&parse(text).expect("a sheet")), text);
    }
}

#[test]
fn notation_tells_what_is_wrong() {
    let wrong =
        ["", "RC", "RC : | ", "RC RC : R0", "RX : R0", "RC : X0", "RC : R", "RC : R-1", "RC : R+1", "RC : R70000"];
    for text in wrong {
        assert!(parse(text).is_err(), "{text}");
    }
    assert!(parse("RC : R0 : 7").is_err());
}

fn lines(stream: &[u8]) -> String {
    answers(stream).collect()
}

#[test]
fn example_of_the_stream() {
    let sheet = EXAMPLE.to_vec();
    let questions = [
        Question::Read { sheet: sheet.clone() },
        Question::Judge { sheet: sheet.clone(), levels: vec![1, 1] },
        Question::Next { sheet: sheet.clone(), levels: vec![0, 0], above: [0; 4] },
        Question::Lowest { sheet: sheet.clone(), buffer: vec![0xEE; 3] },
        Question::Levels { sheet, buffer: vec![0xEE; 3] },
    ];
    let due = "\
read 2 1 : 0 R0 W0 : 1 R0 W0
robust
danger 1 1 2 2 : 2 : 1-2 1-2
lowest 4 : 01 01 ee
levels 2 : 00 01 ee
";
    assert_eq!(lines(&write(&questions)), due);
}

#[test]
fn refusals_of_arguments() {
    let line = |question: Question| question.answer();
    let judge = |levels| line(Question::Judge { sheet: EXAMPLE.to_vec(), levels });
    assert_eq!(judge(vec![0]), "refused 13 at 0");
    assert_eq!(judge(vec![3, 0, 0]), "refused 13 at 0");
    assert_eq!(judge(vec![2, 3]), "refused 14 at 1");
    let lowest = |sheet: &[u8], buffer| line(Question::Lowest { sheet: sheet.to_vec(), buffer });
    assert_eq!(lowest(&EXAMPLE, vec![7]), "refused 15 at 0 : 07");
    assert_eq!(lowest(&EXAMPLE, vec![]), "refused 15 at 0 :");
    assert_eq!(lowest(&EXAMPLE[..31], vec![7, 8]), "refused 1 at 29 : 07 08");
    let levels = |sheet: &[u8], buffer| line(Question::Levels { sheet: sheet.to_vec(), buffer });
    assert_eq!(levels(&EXAMPLE, vec![7]), "refused 15 at 0 : 07");
    assert_eq!(levels(&EXAMPLE, vec![]), "refused 15 at 0 :");
    assert_eq!(levels(&EXAMPLE[..31], vec![7]), "refused 1 at 29 : 07");
    let next = |levels| line(Question::Next { sheet: EXAMPLE.to_vec(), levels, above: [255; 4] });
    assert_eq!(next(vec![0, 0]), "end");
    assert_eq!(next(vec![0, 9]), "refused 14 at 1");
}

#[test]
fn faults_of_the_stream() {
    assert_eq!(lines(&[0, 0, 0]), "cut at question 0\n");
    assert_eq!(lines(&[0, 0, 0, 0]), "");
    assert_eq!(lines(&[0, 0, 0, 0, 1]), "malformed at question 1\n");
    assert_eq!(lines(&[0, 1, 0x86, 0xA1]), "malformed at question 0\n");
    assert_eq!(lines(&[0, 1, 0x86, 0xA0]), "cut at question 1\n");
    assert_eq!(lines(&[0, 0, 0, 1, 6]), "malformed at question 1\n");
    assert_eq!(lines(&[0, 0, 0, 2, 1, 0, 0, 3, 0, 0]), "refused 1 at 0\ncut at question 2\n");
    assert_eq!(lines(&[0, 0, 0, 1, 3, 0, 0, 0, 0, 0, 3, 0, 0, 0]), "malformed at question 1\n");
    assert_eq!(lines(&[0, 0, 0, 1, 1, 0x10, 0x01]), "malformed at question 1\n");
    assert_eq!(lines(&[0, 0, 0, 1, 1, 0x10, 0x00, 1]), "cut at question 1\n");
    assert!(broken_streams(KINDS).len() > 100);
}

#[test]
fn stored_stream_is_large_enough_and_small_enough() {
    let stream = write(&stored(KINDS));
    let lines = lines(&stream);
    assert!(lines.lines().count() >= 20_000);
    assert!(stream.len() + lines.len() < 4_000_000);
    assert_eq!(write(&random(7, 50, KINDS)), write(&random(7, 50, KINDS)));
}
