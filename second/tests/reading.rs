//! Reading: the edges and reasons of document 01 with their places.

use second::cases::{longest, many_short};
use second::notation::parse;
use second::reader::read;
use second::sheet::Sheet;

fn outcome(bytes: &[u8]) -> String {
    match read(bytes) {
        Ok(sheet) => format!("read {} {}", sheet.jobs.len(), sheet.objects),
        Err(refusal) => refusal.to_string(),
    }
}

fn made(text: &str) -> Vec<u8> {
    parse(text).expect("a sheet as people write it").bytes()
}

fn with(bytes: &[u8], changes: &[(usize, u8)]) -> Vec<u8> {
    let mut bytes = bytes.to_vec();
    for &(place, byte) in changes {
        bytes[place] = byte;
    }
    bytes
}

#[test]
fn edges_of_document_01() {
    assert_eq!(outcome(&[]), "refused 1 at 0");
    assert_eq!(outcome(&[1, 0, 4, 1, 0, 0, 0, 0x7F, 0, 0]), "read 0 0");
    assert_eq!(outcome(&many_short().bytes()), "read 32 8");
    let mut many = many_short();
    many.jobs.push(many.jobs[0].clone());
    assert_eq!(outcome(&many.bytes()), "refused 5 at 4");
    let objects = |objects| outcome(&Sheet { objects, ..parse("RC : R0").expect("a sheet") }.bytes());
    assert_eq!(objects(4096), "read 1 4096");
    assert_eq!(objects(4097), "refused 6 at 5");
    assert_eq!(objects(0), "refused 10 at 13");
    let operations = |count| made(&format!("RC :{}", (0..count).map(|o| format!(" R{o}")).collect::<String>()));
    assert_eq!(outcome(&operations(16)), "read 1 16");
    assert_eq!(outcome(&operations(17)), "refused 8 at 11");
    assert_eq!(outcome(&with(&made("RC : R0"), &[(4, 2)])), "refused 2 at 15");
}

#[test]
fn the_longest_sheet() {
    let bytes = longest().bytes();
    assert_eq!(bytes.len(), 1706);
    assert_eq!(read(&bytes), Ok(longest()));
}

#[test]
fn faults_of_the_head() {
    let good = made("RC SI : R0 W0 | R0 W0");
    assert_eq!(outcome(&good[..2]), "refused 1 at 0");
    assert_eq!(outcome(&with(&good, &[(0, 2)])), "refused 2 at 0");
    assert_eq!(outcome(&with(&good, &[(2, 5)])), "refused 3 at 0");
    assert_eq!(outcome(&good[..6]), "refused 1 at 0");
    assert_eq!(outcome(&with(&good, &[(3, 2)])), "refused 4 at 3");
    assert_eq!(outcome(&with(&good, &[(4, 40)])), "refused 5 at 4");
    assert_eq!(outcome(&with(&good, &[(5, 0x10), (6, 0x01)])), "refused 6 at 5");
}

#[test]
fn faults_of_the_last_job_and_the_end() {
    let good = longest().bytes();
    let job = 7 + 31 * 53;
    assert_eq!(outcome(&good[..job + 2]), format!("refused 1 at {job}"));
    assert_eq!(outcome(&with(&good, &[(job, 1)])), format!("refused 2 at {job}"));
    assert_eq!(outcome(&with(&good, &[(job + 2, 1)])), format!("refused 3 at {job}"));
    assert_eq!(outcome(&good[..job + 52]), format!("refused 1 at {job}"));
    assert_eq!(outcome(&with(&good, &[(job + 3, 3)])), "refused 7 at 1653");
    assert_eq!(outcome(&with(&good, &[(job + 4, 0)])), "refused 8 at 1654");
    assert_eq!(outcome(&with(&good, &[(job + 4, 15)])), format!("refused 3 at {job}"));
    assert_eq!(outcome(&with(&good, &[(job + 50, 3)])), "refused 9 at 1700");
    assert_eq!(outcome(&with(&good, &[(job + 51, 0x10)])), "refused 10 at 1701");
    let twice = with(&good, &[(job + 50, good[job + 47]), (job + 51, good[job + 48]), (job + 52, good[job + 49])]);
    assert_eq!(outcome(&twice), "refused 11 at 1700");
    assert_eq!(outcome(&good[..1705]), "refused 1 at 1703");
    assert_eq!(outcome(&with(&good, &[(1703, 2)])), "refused 2 at 1703");
    assert_eq!(outcome(&with(&good, &[(1705, 1)])), "refused 3 at 1703");
    assert_eq!(outcome(&[good.as_slice(), &[0]].concat()), "refused 12 at 1706");
}

#[test]
fn an_object_may_be_read_and_written_in_either_order() {
    assert_eq!(outcome(&made("RC RC : R0 W0 | W0 R0")), "read 2 1");
    assert_eq!(outcome(&made("RC : R0 W0 R0")), "refused 11 at 18");
    assert_eq!(outcome(&made("RC : W0 R0 W0")), "refused 11 at 18");
}
