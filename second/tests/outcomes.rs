//! Sheets with their outcome: document 01's table, cases that tell the conditions apart, and its list of shortcuts.

use second::dangers::Dangers;
use second::lowest::{by_definition, by_rule};
use second::notation::parse;
use second::sheet::{Level, Sheet};
use second::survey::danger_text;

fn sheet(text: &str) -> Sheet {
    parse(text).expect("a sheet as people write it")
}

/// The dangers with their chains, without the first word.
fn dangers(sheet: &Sheet) -> Vec<String> {
    let all = Dangers::new(sheet).all(&sheet.levels());
    all.iter().map(|split| danger_text(split).replacen("danger ", "", 1)).collect()
}

fn names(levels: &[Level]) -> String {
    let names: Vec<&str> = levels.iter().map(|level| level.name()).collect();
    names.join(" ")
}

/// The sheet has these dangers under its own levels, and these lowest levels by the definition and by the rule.
fn holds(text: &str, due: &[&str], lowest: &str, asked: usize) {
    let sheet = sheet(text);
    let jobs = sheet.jobs.len();
    assert_eq!(dangers(&sheet), due, "{text}");
    let every = Dangers::new(&sheet);
    assert_eq!(every.robust(&sheet.levels()), due.is_empty(), "{text}");
    let (levels, number) = by_rule(jobs, &every);
    assert_eq!(names(&levels), lowest, "{text}");
    assert_eq!(number, asked, "{text}");
    assert_eq!(by_definition(jobs, &every), [levels], "{text}");
}

#[test]
fn table_of_document_01() {
    let p3 = ["1 1 2 2 : 2", "2 1 1 1 : 1"];
    holds(":", &[], "", 0);
    holds("RC : R0 W0", &[], "RC", 1);
    holds("RC RC : R0 W0 | R0 W0", &p3, "SI SI", 4);
    holds("SI SI : R0 W0 | R0 W0", &[], "SI SI", 4);
    holds("SI SSI : R0 W1 | R1 W0", &p3, "SSI SSI", 4);
    holds("SSI SSI : R0 W1 | R1 W0", &[], "SSI SSI", 4);
    holds("RC RC : R0 R1 | W0 W1", &["1 1 2 2 : 2"], "SI RC", 3);
    holds("RC RC : W0 R0 | W0", &[], "RC RC", 2);
    holds("SI SI SI : R0 W1 | W0 W2 | R2 R1", &["1 1 2 3 : 2 3"], "SSI SSI SSI", 6);
    let p10 = ["1 1 2 3 : 2 3", "3 1 2 1 : 2 1"];
    holds("RC RC RC : R0 W1 | W0 W2 | R2 R1", &p10, "SSI SSI SSI", 6);
    let p11 = sheet("SI SI SI SI : R0 W1 | W0 W2 | R2 W3 | R3 R1");
    assert_eq!(dangers(&p11), ["1 1 2 4 : 2 3 4", "3 1 2 4 : 2 1 4"]);
}

#[test]
fn each_condition_shows() {
    let condition_1 = "RC SI SI SSI : R0 W1 | W0 | W1 R0 | R1";
    holds(condition_1, &["1 1 2 3 : 2 3"], "SI RC RC RC", 5);
    holds("RC RC RC : W0 | W0 R0 | R0", &[], "RC RC RC", 3);
    let condition_7 = ["1 2 2 2 : 2", "2 1 1 1 : 1", "2 1 1 3 : 1 3"];
    holds("SSI RC SSI : W0 R1 | R0 W1 | R0 W1", &condition_7, "SSI SSI SSI", 6);
    holds("RC SSI SSI : W0 | R0 W1 | W0 R1", &[], "RC SSI SSI", 5);
}

#[test]
fn shortcuts_that_give_false_levels() {
    // A cycle of conflicts is not yet a danger.
    assert_eq!(dangers(&sheet("SI SI : R0 W0 | R0 W0")), [""; 0]);
    // A middle job that conflicts with the split job ends the chain: job 3 reads what job 1 writes.
    let through_3 = "SI SI SI SI : R0 W1 | W0 W2 | R2 W3 | R3 R1";
    let blocked = "SI SI SI SI : R0 W1 W4 | W0 W2 | R2 W3 R4 | R3 R1";
    assert!(dangers(&sheet(through_3)).contains(&"1 1 2 4 : 2 3 4".to_string()));
    assert!(!dangers(&sheet(blocked)).iter().any(|danger| danger.starts_with("1 1 2 4")));
    // Condition 6 asks of Tm, too.
    assert_eq!(dangers(&sheet("SSI SSI SI : R0 W1 | W0 W2 | R2 R1")), ["1 1 2 3 : 2 3"]);
    // Under RC the chain may return by any conflict after the split.
    assert_eq!(dangers(&sheet("RC RC : R0 R1 | W0 W1")), ["1 1 2 2 : 2"]);
    assert_eq!(dangers(&sheet("SI RC : R0 R1 | W0 W1")), [""; 0]);
    // Further operations of the split job remain after the last job of one.
    let two_operations = dangers(&sheet("RC RC : R0 R1 W2 | W0 W1 R2"));
    assert_eq!(two_operations, ["1 1 2 2 : 2", "1 2 2 2 : 2", "2 3 1 1 : 1"]);
}
