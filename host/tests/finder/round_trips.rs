//! `write` of `show` gives back job files, and `run` gives the stored answers.

use crate::process::{finder, repository, Folder};
use host::commands::{row, ALLOWANCE, END, MOST_BYTES, PRECISION, TWO_ARCS};
use host::random::Random;
use std::fs;

/// A record of the stored answers.
struct Stored {
    job: Vec<u8>,
    number: u32,
    place: u32,
    replies: Vec<u8>,
}

const TEXT_LENGTH: usize = 512;
const BUFFER_TOO_SHORT: u32 = 5;

fn stored() -> Vec<Stored> {
    let bytes = fs::read(repository().join("crates/stored_answers/stdin"))
        .expect("the stored answers are there");
    let mut rest = &bytes[TEXT_LENGTH..];
    let mut all = Vec::new();
    while !rest.is_empty() {
        let [job, _buffer, number, place, written] = [0, 1, 2, 3, 4]
            .map(|at| u32::from_le_bytes(rest[4 * at..4 * at + 4].try_into().unwrap()));
        let (start, end) = (20 + job as usize, 20 + (job + written) as usize);
        all.push(Stored {
            job: rest[20..start].to_vec(),
            number,
            place,
            replies: rest[start..end].to_vec(),
        });
        rest = &rest[end..];
    }
    assert_eq!(all.len(), 2_200);
    all
}

fn assert_round_trip(job: &[u8]) {
    let text = finder(&["show", "--job"], job).done();
    let again = finder(&["write"], &text).done();
    assert_eq!(again, job, "{}", String::from_utf8_lossy(&text));
}

#[test]
fn stored_job_files() {
    let accepted = |stored: &Stored| [0, BUFFER_TOO_SHORT].contains(&stored.number);
    let jobs: Vec<_> = stored().into_iter().filter(accepted).collect();
    assert!(jobs.len() > 1_500, "{}", jobs.len());
    for stored in jobs {
        assert_round_trip(&stored.job);
    }
}

#[test]
fn stored_answers() {
    let folder = Folder::new();
    let mut refused = 0;
    // The program's own buffer is never too short.
    for stored in stored()
        .iter()
        .filter(|stored| stored.number != BUFFER_TOO_SHORT)
    {
        folder.write("job", &stored.job);
        let ran = folder.finder(&["run", "--job", "job"]);
        if stored.number == 0 {
            assert_eq!(ran.done(), stored.replies);
        } else {
            refused += 1;
            let start = format!(
                "finder: job: refused under {} at place {}: ",
                stored.number, stored.place
            );
            assert!(ran.err.starts_with(&start), "{ran:?}, not {start}");
            assert_eq!((ran.status, &*ran.out), (1, &b""[..]));
        }
    }
    assert!(refused > 200, "{refused}");
}

/// Any bits for floats and bytes, with more NaNs and infinities than chance would bring.
#[test]
fn random_job_files() {
    let mut random = Random::new(0x546578);
    let mut shown = String::new();
    for count in 0..300 {
        let mut job = Vec::new();
        for _ in 0..count % 40 {
            add_command(&mut random, &mut job);
        }
        job.push(END);
        assert_round_trip(&job);
        shown += &finder(&["show", "--job"], &job).text();
    }
    for seen in [
        "bits:7FF0000000000000",
        "bits:FFF",
        "bits:7FF4",
        " -0 ",
        " north\n",
        " south\n",
        " east ",
        " west ",
        "two-arcs ",
    ] {
        assert!(shown.contains(seen), "no {seen:?}");
    }
}

fn add_command(random: &mut Random, job: &mut Vec<u8>) {
    const SPECIAL: [u64; 6] = [
        0x7FF0 << 48,
        0xFFF0 << 48,
        0x7FF8 << 48,
        0x7FF4_0000_0000_0001,
        1 << 63,
        1,
    ];
    let code = PRECISION + random.below(u64::from(TWO_ARCS)) as u8;
    let row = row(code).expect("the code is in the table");
    job.push(code);
    for _ in row.floats {
        let bits = match random.below(4) {
            0 => random.one_of(&SPECIAL),
            1 => 0xFFF0 << 48 | random.next_u64(),
            _ => random.next_u64(),
        };
        job.extend(bits.to_le_bytes());
    }
    for _ in 0..row.bytes {
        let most = if random.flip() { 2 } else { 256 };
        job.push(random.below(most) as u8);
    }
}

/// The longest files: the shortest commands, and floats with the longest decimals.
#[test]
fn longest_job_files() {
    let allowances = [ALLOWANCE, 7].repeat(MOST_BYTES / 2 - 1);
    assert_round_trip(&[&allowances[..], &[END]].concat());
    let precision = [
        &[PRECISION][..],
        &(-1.2345678901234567e-300_f64).to_le_bytes(),
    ]
    .concat();
    let precisions = precision.repeat(MOST_BYTES / 9);
    assert_round_trip(&[&precisions[..], &[END]].concat());
}
