//! Random files, against document 01's rules and the reference.

use super::file;
use host::comparison::depends::{changed, expected, with_others};
use host::job_files::Maker;
use host::program::depends::alone::Settled;
use host::{reference, rules};

const SEED: u64 = 0x5465_7374;
const PAIRS: usize = 150;
const ALONE: usize = 120;

/// The exit status and what is printed.
fn depends(files: &[&str]) -> (i32, String) {
    let ran = super::depends(files);
    (
        ran.status,
        String::from_utf8(ran.out).expect("it prints UTF-8"),
    )
}

/// The numbers after `of 13 replies differ between A and B: `, such as `commands 3, 5 to 8 and 12.`
fn named(printed: &str) -> Vec<usize> {
    let sentence = printed.lines().last().expect("it prints a sentence");
    let Some((_, listed)) = sentence.split_once(" between A and B: command") else {
        return Vec::new();
    };
    let listed = listed.trim_start_matches('s').trim_end_matches('.');
    let parts = listed.split(", ").flat_map(|part| part.split(" and "));
    let numbers = parts.flat_map(|part| {
        let ends = part
            .trim()
            .split(" to ")
            .map(|end| end.parse().expect("it is a number"));
        let ends: Vec<usize> = ends.collect();
        ends[0]..=ends[ends.len() - 1]
    });
    numbers.collect()
}

#[test]
fn pairs_of_both_answers() {
    reference::silence_watched_panics();
    let mut maker = Maker::new(SEED);
    let mut answers = [0; 2];
    for _ in 0..PAIRS {
        let a = maker.mixed(340).bytes;
        let b = with_others(&a, &mut maker.random);
        let Some(replies) = expected::pair(&a, &b)
            .into_iter()
            .collect::<Option<Vec<_>>>()
        else {
            continue;
        };
        let differ = replies
            .iter()
            .enumerate()
            .filter(|(_, reply)| reply.differs);
        let differ: Vec<_> = differ.map(|(place, _)| place + 1).collect();
        let [first, second] = [("a.job", a), ("b.job", b)].map(|(name, job)| file(name, &job));
        let (status, printed) = depends(&[&first, &second]);
        assert_eq!(named(&printed), differ, "{printed}");
        assert_eq!(status, if differ.is_empty() { 0 } else { 3 }, "{printed}");
        let begins = printed.starts_with("A: ") && printed.contains("\nB: ");
        assert!(begins, "{printed}");
        answers[usize::from(!differ.is_empty())] += 1;
    }
    assert!(
        answers.iter().all(|count| *count > PAIRS / 10),
        "{answers:?}"
    );
}

#[test]
fn the_first_place_that_is_not_alike() {
    let mut maker = Maker::new(SEED);
    let mut answers = [0; 2];
    for _ in 0..2 * PAIRS {
        let a = maker.mixed(340).bytes;
        let other = with_others(&a, &mut maker.random);
        // With another byte or a command less two files are seldom alike.
        let b = if maker.random.flip() {
            changed(&other, &mut maker.random)
        } else {
            other
        };
        if rules::commands(&b).is_err() {
            continue;
        }
        let expected = expected::alike(&a, &b);
        let [first, second] =
            [("first.job", a), ("second.job", b)].map(|(name, job)| file(name, &job));
        let ran = super::depends(&[&first, &second]);
        let said = ran.err;
        let place = said.split_once("are not alike: the first place is ");
        let place = place
            .and_then(|(_, rest)| rest.split_once(" ("))
            .map(|(place, _)| place);
        match expected {
            Ok(()) => assert_eq!(said, ""),
            Err(expected) => {
                assert_eq!(place, Some(expected.to_string().as_str()), "{said}");
                assert_eq!(ran.status, 2);
            }
        }
        answers[usize::from(expected.is_ok())] += 1;
    }
    assert!(
        answers.iter().all(|count| *count > PAIRS / 10),
        "{answers:?}"
    );
}

#[test]
fn the_least_allowance_of_each_reply() {
    reference::silence_watched_panics();
    let mut maker = Maker::new(SEED);
    let mut answers = [0; 2];
    for _ in 0..ALONE {
        let job = maker.mixed(260).bytes;
        let Some(replies) = expected::alone(&job)
            .into_iter()
            .collect::<Option<Vec<_>>>()
        else {
            continue;
        };
        let (status, printed) = depends(&[&file("alone.job", &job)]);
        let lines: Vec<_> = printed.lines().skip(1).take(replies.len()).collect();
        assert_eq!(lines.len(), replies.len(), "{printed}");
        for (line, reply) in lines.iter().zip(&replies) {
            let settled = match reply.settled {
                Settled::Always => " any".to_string(),
                Settled::From(least) => format!(" {least}"),
                Settled::NotBy255 => " not by 255".to_string(),
            };
            assert!(line.ends_with(&settled), "{line}, not{settled}");
        }
        let settles = replies.iter().all(|reply| reply.own_settles);
        assert_eq!(status, if settles { 0 } else { 3 }, "{printed}");
        answers[usize::from(settles)] += 1;
    }
    assert!(
        answers.iter().all(|count| *count > ALONE / 10),
        "{answers:?}"
    );
}
