//! Cases for reading: document 01's edges, each reason at its first, a middle and its last place, two faults at once,
//! every prefix, every change of one byte, and noise.

use super::known;
use crate::questions::Question;
use crate::random::Random;
use crate::sheet::Sheet;

pub fn cases() -> Vec<Question> {
    let groups = [
        edges(),
        head_faults(),
        job_faults(&known::example(), 1),
        job_faults(&known::longest(), 16),
        job_faults(&known::longest(), 32),
        end_faults(&known::sheet(":")),
        end_faults(&known::sheet("SI SI SI SI : R0 W1 | W0 W2 | R2 W3 | R3 R1")),
        end_faults(&known::longest()),
        two_faults(),
        prefixes(),
        one_byte_changes(&known::sheet("SSI : R1 W0")),
        one_byte_changes(&known::example()),
        noise(),
    ];
    groups.into_iter().flatten().map(|sheet| Question::Read { sheet }).collect()
}

/// The edges that document 01 lists, and the sheets with a name.
fn edges() -> Vec<Vec<u8>> {
    let mut sheets: Vec<Vec<u8>> = known::small().iter().map(Sheet::bytes).collect();
    for sheet in [known::longest(), known::many_short(), known::most_dangers(), known::ring(32, 1), known::ladder()] {
        sheets.push(sheet.bytes());
    }
    let mut missing_job = known::example().bytes();
    missing_job[4] = 3;
    sheets.extend([Vec::new(), too_many_jobs(), missing_job]);
    sheets.extend([with_objects(4096), with_objects(4097), with_objects(0), with_objects(1)]);
    sheets.extend([operations(16), operations(17)]);
    sheets
}

fn too_many_jobs() -> Vec<u8> {
    let mut sheet = known::many_short();
    sheet.jobs.push(sheet.jobs[0].clone());
    sheet.bytes()
}

fn with_objects(objects: u16) -> Vec<u8> {
    Sheet { objects, ..known::sheet("RC : R0") }.bytes()
}

fn operations(count: usize) -> Vec<u8> {
    let words: String = (0..count).map(|object| format!(" W{object}")).collect();
    known::sheet(&format!("SI :{words}")).bytes()
}

/// The sheet with other bytes from some place on.
fn changed(bytes: &[u8], place: usize, new: &[u8]) -> Vec<u8> {
    let mut bytes = bytes.to_vec();
    bytes[place..place + new.len()].copy_from_slice(new);
    bytes
}

fn head_faults() -> Vec<Vec<u8>> {
    let good = known::example().bytes();
    let mut sheets: Vec<Vec<u8>> = (0..7).map(|length| good[..length].to_vec()).collect();
    sheets.extend([0x00, 0x02, 0x7F, 0xFF].map(|tag| changed(&good, 0, &[tag])));
    sheets.extend([0, 3, 5, 0x0104, 0xFFFF_u16].map(|length| changed(&good, 1, &length.to_be_bytes())));
    sheets.extend([0, 2, 255].map(|form| changed(&good, 3, &[form])));
    sheets.extend([33, 40, 255].map(|jobs| changed(&good, 4, &[jobs])));
    sheets.extend([4097, 0xFFFF_u16].map(|objects| changed(&good, 5, &objects.to_be_bytes())));
    sheets
}

/// Where the records of the jobs start, and the end record last.
fn starts(sheet: &Sheet) -> Vec<usize> {
    let mut starts = vec![7];
    for job in &sheet.jobs {
        starts.push(starts[starts.len() - 1] + 5 + 3 * job.operations.len());
    }
    starts
}

/// Every reason that a job record can give, at this job, its first, a middle and its last operation.
fn job_faults(sheet: &Sheet, number: usize) -> Vec<Vec<u8>> {
    let good = sheet.bytes();
    let (start, next) = (starts(sheet)[number - 1], starts(sheet)[number]);
    let count = sheet.job(number).operations.len();
    let mut sheets: Vec<Vec<u8>> =
        [start, start + 1, start + 2, start + 3, next - 1].map(|length| good[..length].to_vec()).to_vec();
    sheets.extend([0x01, 0x7F, 0x82].map(|tag| changed(&good, start, &[tag])));
    let length = (2 + 3 * count) as u16;
    let lengths = [0, 1, 2, length - 1, length + 1, 0xFFFF];
    sheets.extend(lengths.map(|length| changed(&good, start + 1, &length.to_be_bytes())));
    sheets.extend([3, 255].map(|level| changed(&good, start + 3, &[level])));
    sheets.extend([0, 1, 15, 17, 255].map(|count| changed(&good, start + 4, &[count])));
    for operation in [1, 1 + count / 2, count] {
        sheets.extend(operation_faults(&good, start + 5 + 3 * (operation - 1), operation > 1));
    }
    sheets
}

/// The operation whose kind byte stands at `place` goes wrong; `later` if another stands before it in its job.
fn operation_faults(good: &[u8], place: usize, later: bool) -> Vec<Vec<u8>> {
    let mut sheets: Vec<Vec<u8>> = [0, 3, 255].map(|kind| changed(good, place, &[kind])).to_vec();
    let declared = u16::from_be_bytes([good[5], good[6]]);
    sheets.extend([declared, 0xFFFF].map(|object| changed(good, place + 1, &object.to_be_bytes())));
    if later {
        for kind in [1, 2] {
            let twice = changed(good, place - 3, &[kind]);
            sheets.push(changed(&twice, place, &[kind, good[place - 2], good[place - 1]]));
        }
    }
    sheets
}

fn end_faults(sheet: &Sheet) -> Vec<Vec<u8>> {
    let good = sheet.bytes();
    let end = good.len() - 3;
    let mut sheets: Vec<Vec<u8>> = [end, end + 1, end + 2].map(|length| good[..length].to_vec()).to_vec();
    sheets.extend([0x00, 0x01, 0x02].map(|tag| changed(&good, end, &[tag])));
    sheets.extend([[0, 1], [1, 0]].map(|length| changed(&good, end + 1, &length)));
    sheets.extend([[0x00].as_slice(), &[0x7F, 0, 0], &[0xFF; 40]].map(|more| [&good, more].concat()));
    sheets
}

/// Pairs of faults of which the document's order decides.
fn two_faults() -> Vec<Vec<u8>> {
    let good = known::example().bytes();
    let both = |(one, new_one): (usize, u8), (other, new_other): (usize, u8)| {
        changed(&changed(&good, one, &[new_one]), other, &[new_other])
    };
    let cut_tag = good[..2].iter().map(|_| 0xEE).collect();
    let short_length = changed(&good, 1, &[0xFF])[..5].to_vec();
    vec![
        cut_tag,
        short_length,
        both((0, 2), (1, 9)),
        both((2, 5), (3, 9)),
        both((3, 0), (4, 40)),
        both((4, 40), (5, 0xFF)),
        both((5, 0xFF), (10, 9)),
        both((7, 9), (9, 1)),
        both((9, 7), (10, 9)),
        both((9, 2), (10, 9)),
        both((9, 2), (11, 0)),
        both((9, 2), (11, 17)),
        both((10, 9), (11, 0)),
        both((11, 17), (9, 20)),
        both((11, 3), (12, 7)),
        both((12, 7), (14, 9)),
        both((14, 9), (15, 7)),
        both((15, 1), (14, 1)),
        both((15, 1), (18, 9)),
        both((29, 2), (31, 1)),
        both((31, 1), (10, 9)),
    ]
}

fn prefixes() -> Vec<Vec<u8>> {
    let good = known::sheet("SI RC SSI SI : R0 W1 | W0 W2 | R2 W3 | R3 R1 W7 : objects 300").bytes();
    (0..good.len()).map(|length| good[..length].to_vec()).collect()
}

fn one_byte_changes(sheet: &Sheet) -> Vec<Vec<u8>> {
    let good = sheet.bytes();
    let mut sheets = Vec::new();
    for place in 0..good.len() {
        let others = (0..=255).filter(|byte| *byte != good[place]);
        sheets.extend(others.map(|byte| changed(&good, place, &[byte])));
    }
    sheets
}

fn noise() -> Vec<Vec<u8>> {
    let mut random = Random::new(4096);
    let starts = [Vec::new(), vec![0x01], known::example().bytes()[..7].to_vec(), known::longest().bytes()];
    starts.map(|start| [start.clone(), random.bytes(4096 - start.len())].concat()).to_vec()
}
