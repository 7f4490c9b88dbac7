//! Each reason that a sheet can give, at its first, a middle and its last place, with each kind of question that brings
//! more than the sheet: the sheet's fault comes before 13, 14 and 15 (document 01, "Reasons for turning a call down").

use super::{known, Question};

/// Three jobs of three operations: the head from 0, job records from 7, 21 and 35, the end record from 49.
const SHEET: &str = "RC SI SSI : R0 W1 R2 | W0 R1 W2 | R3 W3 R0 : objects 300";

/// Where new bytes stand that bring in a fault. The number of objects is 12C in hexadecimal.
const CHANGES: [(usize, &[u8]); 25] = [
    (0, &[0x02]),
    (21, &[0x7F]),
    (49, &[0x02]),
    (2, &[0x05]),
    (23, &[0x01]),
    (37, &[0x0A]),
    (51, &[0x01]),
    (3, &[0x00]),
    (4, &[33]),
    (5, &[0x10, 0x01]),
    (10, &[3]),
    (24, &[4]),
    (38, &[255]),
    (11, &[0]),
    (25, &[17]),
    (39, &[255]),
    (12, &[0]),
    (29, &[3]),
    (46, &[255]),
    (13, &[0x01, 0x2C]),
    (30, &[0x01, 0x2C]),
    (47, &[0xFF, 0xFF]),
    (15, &[1, 0, 0]),
    (32, &[2, 0, 0]),
    (46, &[2, 0, 3]),
];

pub fn cases() -> Vec<Question> {
    faulty().iter().flat_map(|sheet| with_each_kind(sheet)).collect()
}

fn faulty() -> Vec<Vec<u8>> {
    let good = known::sheet(SHEET).bytes();
    let mut sheets: Vec<Vec<u8>> = [0, 2, 9, 30, 48, 51].map(|length| good[..length].to_vec()).to_vec();
    for (place, new) in CHANGES {
        let mut sheet = good.clone();
        sheet[place..place + new.len()].copy_from_slice(new);
        sheets.push(sheet);
    }
    sheets.push([good.as_slice(), &[0x7F]].concat());
    sheets.push([good.as_slice(), &[0xFF; 40]].concat());
    sheets
}

/// Levels and buffers that fit, that don't, and a level above 2.
fn with_each_kind(sheet: &[u8]) -> Vec<Question> {
    let mut cases = vec![Question::Read { sheet: sheet.to_vec() }];
    for levels in [vec![1; 3], vec![], vec![2, 9, 0]] {
        cases.push(Question::Judge { sheet: sheet.to_vec(), levels: levels.clone() });
        cases.push(Question::Next { sheet: sheet.to_vec(), levels, above: [0; 4] });
    }
    for buffer in [vec![0xEE; 3], vec![]] {
        cases.push(Question::Lowest { sheet: sheet.to_vec(), buffer: buffer.clone() });
        cases.push(Question::Levels { sheet: sheet.to_vec(), buffer });
    }
    cases
}
