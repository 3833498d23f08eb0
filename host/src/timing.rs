//! `finder_run` against the reference, on the same jobs; for two arcs, which the reference doesn't know, against document 02's rule over its vectors.

use crate::commands::{
    Command, ARC, END, EQUATORIAL_CONE, MOST_BYTES, PARALLEL, POLAR_CONE, REPLY_BUFFER, TWO_ARCS,
};
use crate::inputs::ends::{camera_edges, transition_latitude};
use crate::inputs::{cones, parallels, two_arcs::edges_that_cross, Class, Ends};
use crate::plain_reference::{
    arc_special_points, cone_special_point_in_eqr, cone_special_point_in_pc, intersect_parallel,
    two_arcs, Coo3D,
};
use crate::programs::median;
use crate::random::Random;
use crate::rules::{self, Settings};
use crate::{digits, finder, reference};
use std::hint::black_box;
use std::time::Instant;

const SEED: u64 = 0x4172_6373;
/// The files of each class. So many that a file is new to the branch predictor whenever its turn comes: it learns one that is repeated.
const FILES: usize = 60;
const ROUNDS: usize = 51;
const PRECISION: f64 = 1e-9;
const ALLOWANCE: u8 = 20;
/// Room for two arcs, the widest command, and for 00.
const ROOM: usize = 66;

const CLASSES: [Class<Command>; 7] = [
    ("arcs on the equator", |random| {
        edge(random, |[_, lat1, _, lat2]| {
            lat1.abs().max(lat2.abs()) < transition_latitude()
        })
    }),
    ("arcs in the caps", |random| {
        edge(random, |[_, lat1, _, lat2]| {
            lat1.abs().min(lat2.abs()) > transition_latitude() && lat1 * lat2 > 0.0
        })
    }),
    ("camera edges all over the sky", |random| {
        edge(random, |_| true)
    }),
    ("cones in the equator", cones::advised_in_eqr),
    ("cones in the caps", cones::advised_in_pc),
    ("parallels, settings between them", parallel_or_setting),
    ("two camera edges that cross", edges_that_cross),
];

/// A camera's edge of up to 20 degrees of which this holds.
fn edge(random: &mut Random, holds: fn(Ends) -> bool) -> Command {
    loop {
        let ends = camera_edges(random);
        if holds(ends) {
            return Command::new(ARC, ends, []);
        }
    }
}

/// A camera's edge and a parallel at any height, or a setting. Few edges cross theirs, so these jobs are small, and show what the finder
/// spends on a command beside its answer.
fn parallel_or_setting(random: &mut Random) -> Command {
    match random.below(3) {
        0 => Command::precision(PRECISION),
        1 => Command::allowance(ALLOWANCE),
        _ => parallels::at(camera_edges(random), random.between(-1.0, 1.0)),
    }
}

struct File {
    bytes: Vec<u8>,
    /// Its commands but for the settings: these have no counterpart in the reference, and only add to the finder's time for the jobs.
    jobs: Vec<Command>,
}

/// A full file of commands of a class, without those at which the reference panics.
fn file(random: &mut Random, draw: fn(&mut Random) -> Command) -> File {
    let settings = Settings::new(PRECISION, ALLOWANCE);
    let (mut bytes, mut jobs) = (Vec::new(), Vec::new());
    Command::precision(PRECISION).write(&mut bytes);
    Command::allowance(ALLOWANCE).write(&mut bytes);
    while bytes.len() + ROOM <= MOST_BYTES {
        let command = draw(random);
        if rules::reply(&command, &settings).panic.is_some() {
            continue;
        }
        command.write(&mut bytes);
        if matches!(
            command.code,
            ARC | EQUATORIAL_CONE | POLAR_CONE | PARALLEL | TWO_ARCS
        ) {
            jobs.push(command);
        }
    }
    bytes.push(END);
    File { bytes, jobs }
}

/// Roots of exact squares are told apart by whether they have at most so many binary digits.
const DIGITS: [u64; 2] = [7, 14];

/// The roots that the jobs of a class cost the reference: those of its text and of document 01's angle functions.
#[derive(Default)]
struct Roots {
    count: u64,
    /// Those of exact squares, by their digits.
    exact: [u64; DIGITS.len() + 1],
}

impl Roots {
    fn of(files: &[File]) -> Roots {
        let settings = Settings::new(PRECISION, ALLOWANCE);
        let arguments = reference::root_arguments(|| {
            for job in files.iter().flat_map(|file| &file.jobs) {
                rules::reply(job, &settings);
            }
        });
        let mut roots = Roots::default();
        for argument in arguments {
            roots.count += 1;
            let told = digits::told(argument.to_bits());
            if digits::EXACT.contains(&told) {
                roots.exact[DIGITS.partition_point(|most| *most < told)] += 1;
            }
        }
        roots
    }

    fn print_exact(&self) {
        let exact: u64 = self.exact.iter().sum();
        let share = 100.0 * exact as f64 / self.count as f64;
        let ([few, more], [short, middle, long]) = (DIGITS, self.exact);
        println!(
            "    {exact} of all {} roots are of exact squares, {share:.2}%: \
             {short} of at most {few} digits, {middle} of {} to {more}, {long} of more",
            self.count,
            few + 1
        );
    }
}

/// The nanoseconds that the file takes in the finder.
fn time_finder(file: &[u8], reply: &mut [u8]) -> f64 {
    let start = Instant::now();
    let answer = finder::run(black_box(file), reply);
    let time = start.elapsed();
    assert_eq!(answer.number, 0, "the file is accepted");
    time.as_nanos() as f64
}

/// The nanoseconds that its jobs take in the reference.
fn time_reference(jobs: &[Command]) -> f64 {
    let start = Instant::now();
    for job in black_box(jobs) {
        run_reference(job);
    }
    start.elapsed().as_nanos() as f64
}

fn run_reference(job: &Command) {
    let [a, b, c, d, e, ..] = job.floats;
    let [byte1, byte2] = job.bytes.map(|byte| byte == 1);
    match job.code {
        ARC => {
            let (p1, p2) = (Coo3D::from_sph_coo(a, b), Coo3D::from_sph_coo(c, d));
            black_box(arc_special_points(&p1, &p2, PRECISION, ALLOWANCE));
        }
        EQUATORIAL_CONE => {
            black_box(cone_special_point_in_eqr(
                a, b, c, byte1, PRECISION, ALLOWANCE,
            ));
        }
        POLAR_CONE => {
            black_box(cone_special_point_in_pc(
                a, b, c, d, byte1, byte2, PRECISION, ALLOWANCE,
            ));
        }
        PARALLEL => {
            let (p1, p2) = (Coo3D::from_sph_coo(a, b), Coo3D::from_sph_coo(c, d));
            black_box(intersect_parallel(&p1, &p2, e).map(|vector| vector.lonlat()));
        }
        TWO_ARCS => {
            let crossing = two_arcs::crossing(&job.floats);
            black_box(crossing.expect("two edges that cross have candidates"));
        }
        code => unreachable!("no class has code {code:02x}"),
    }
}

/// Times both sides by turns, file by file, and gives the sum of each side's medians over the rounds.
fn times(files: &[File]) -> [f64; 2] {
    let mut reply = vec![0; REPLY_BUFFER];
    let mut times = vec![(Vec::new(), Vec::new()); files.len()];
    for _ in 0..ROUNDS {
        for (file, (finder, reference)) in files.iter().zip(&mut times) {
            finder.push(time_finder(&file.bytes, &mut reply));
            reference.push(time_reference(&file.jobs));
        }
    }
    let medians = times
        .into_iter()
        .map(|(finder, reference)| [finder, reference].map(median));
    let sums = medians.reduce(|[a, b], [finder, reference]| [a + finder, b + reference]);
    sums.expect("there are files")
}

/// Times each class.
pub fn run() {
    reference::silence_watched_panics();
    println!("time per job, of {FILES} full files in each class; medians of {ROUNDS} rounds");
    for (name, draw) in CLASSES {
        let random = &mut Random::new(SEED);
        let files: Vec<_> = (0..FILES).map(|_| file(random, draw)).collect();
        let jobs = files.iter().map(|file| file.jobs.len()).sum::<usize>() as f64;
        let roots = Roots::of(&files);
        let each = roots.count as f64 / jobs;
        let [finder, reference] = times(&files).map(|time| time / jobs);
        let ratio = finder / reference;
        println!(
            "{name}: finder {finder:.0} ns, reference {reference:.0} ns, ratio {ratio:.2}; \
             {each:.1} roots in the reference"
        );
        roots.print_exact();
    }
}
