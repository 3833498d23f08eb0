//! Makes the reference ready to be compiled: reads its source, puts document 01's angle functions in the place of the library's, makes document
//! 02's changes, and writes the result to OUT_DIR, once so and once with calls that tell its work on each slot. An edit that doesn't find its
//! place as often as it says fails the build.

use std::env;
use std::fs;
use std::path::{Path, PathBuf};

const FOLDER: &str = "../shared/docs/src";
/// Names another folder, seen from the repository's root.
const VARIABLE: &str = "RENNAGLYPH_REFERENCE";

const LIB: &str = "src--src--lib.rs.txt";
const COO3D: &str = "src--src--sph_geom--coo3d.rs.txt";
const FINDER: &str = "src--src--special_points_finder.rs.txt";

/// How the items begin that the other two files use of lib.rs.
const LIB_ITEMS: [&str; 4] = [
    "pub const TRANSITION_Z: f64 =",
    "pub const ONE_OVER_TRANSITION_Z: f64 =",
    "pub trait Customf64 {",
    "impl Customf64 for f64 {",
];

struct Edit {
    places: usize,
    from: &'static str,
    to: &'static str,
}

const fn edit(places: usize, from: &'static str, to: &'static str) -> Edit {
    Edit { places, from, to }
}

const COO3D_EDITS: [Edit; 6] = [
    edit(1, "sin.atan2(cos)", "crate::angles::atan2(sin, cos)"),
    edit(1, "y.atan2(x)", "crate::angles::atan2(y, x)"),
    edit(1, "z.atan2(", "crate::angles::atan2(z, "),
    edit(2, "f64::atan2(", "crate::angles::atan2("),
    edit(1, "lon.sin_cos()", "crate::angles::sin_cos(lon)"),
    edit(1, "lat.sin_cos()", "crate::angles::sin_cos(lat)"),
];

/// Document 02, ask 2: both longitude functions give 0 where adding 2π comes to exactly 2π.
const LONGITUDE_EDITS: [Edit; 1] = [edit(
    2,
    "lon += TWO_PI;",
    "lon += TWO_PI; if lon == TWO_PI { lon = 0.0; }",
)];

const FINDER_EDITS: [Edit; 2] = [
    edit(
        1,
        "p1_x_p2_norm.atan2(p1_dot_p2)",
        "crate::angles::atan2(p1_x_p2_norm, p1_dot_p2)",
    ),
    edit(
        2,
        "(n / d2.sqrt()).acos()",
        "crate::angles::acos(n / d2.sqrt())",
    ),
];

/// Document 02, ask 5: "The flat rule now applies below π / 648000 radians, one division".
const SHORT_ARC_EDITS: [Edit; 1] = [edit(
    1,
    "ang_dist < (1_f64 / 3600.0).to_degrees()",
    "ang_dist < PI / 648000.0",
)];

/// Two branches, one right after the other, and how the branch after them begins.
struct Branches {
    first: &'static str,
    second: &'static str,
    next: &'static str,
}

/// Document 02, ask 6: "The reference has the two branches exchanged".
const RULE_BRANCHES: Branches = Branches {
    first: "if y0.abs() <= 1e-14 {",
    second: "if ang_dist < PI / 648000.0 {",
    next: "} else {\n      let x0_y0 = x0 / y0;",
};

/// What document 02's rule of ask 7 takes of the reference is made public. This changes nothing of what is worked out, nor do the calls of
/// src/reference.rs, from here on.
const SECOND_TRY_EDITS: [Edit; 2] = [
    edit(1, "\nfn f_eqr(", "\npub fn f_eqr("),
    edit(1, "\nfn have_same_sign(", "\npub fn have_same_sign("),
];

const COO3D_CALLS: [Edit; 5] = [
    edit(
        1,
        "use super::super::Customf64;",
        "use super::super::{Customf64, Noted};",
    ),
    edit(10, ".sqrt()", ".noted_root()"),
    edit(5, "crate::angles::atan2(", "super::super::noted::atan2("),
    // In lonlat_of, and in UnitVect3::lonlat.
    edit(
        1,
        "{ lon = 0.0; }\n  } else if",
        "{ super::super::turned(super::super::LONLAT_OF, y); lon = 0.0; }\n  } else if",
    ),
    edit(
        1,
        "{ lon = 0.0; }\n    }",
        "{ super::super::turned(super::super::LONLAT, self.y); lon = 0.0; }\n    }",
    ),
];

const FINDER_CALLS: [Edit; 16] = [
    edit(1, "use super::{Customf64,", "use super::{Customf64, Noted,"),
    edit(8, ".sqrt()", ".noted_root()"),
    edit(1, "crate::angles::atan2(", "super::noted::atan2("),
    edit(2, "crate::angles::acos(", "super::noted::acos("),
    edit(
        4,
        "let mut n_iter = 0_u8;",
        "let mut n_iter = 0_u8; super::walk_begins();",
    ),
    edit(4, "n_iter += 1;", "n_iter += 1; super::step_made(z_eps);"),
    // The first line of arc_special_point_in_eqr.
    edit(
        1,
        "let cone_center = cross_product(p1, p2).normalized();",
        "super::equator_begins(p1, p2); let cone_center = cross_product(p1, p2).normalized();",
    ),
    edit(
        1,
        "intersect_parallel(p1, p2, z).map(|v| v.lonlat())",
        "super::crossed(intersect_parallel(p1, p2, z).map(|v| v.lonlat()))",
    ),
    // The first line of arc_special_point_in_pc.
    edit(
        1,
        "// Ensure p1.lon() < p2.lon()",
        "super::cap_begins(p1.z());",
    ),
    edit(1, "// Cross lon = 0", "super::second_comes_first();"),
    edit(
        2,
        "res_z1 = arc_special_point_in_pc_same_quarter(",
        "super::piece_begins(super::FIRST); res_z1 = arc_special_point_in_pc_same_quarter(",
    ),
    edit(
        2,
        "res_z2 = arc_special_point_in_pc_same_quarter(",
        "super::piece_begins(super::SECOND); res_z2 = arc_special_point_in_pc_same_quarter(",
    ),
    // With one quarter only, the second slot is known to have no piece before the first has one.
    edit(
        1,
        "// Same quarter",
        "super::second_comes_first(); super::piece_begins(super::FIRST);",
    ),
    edit(2, "Some(v.lonlat())", "super::crossed(Some(v.lonlat()))"),
    edit(
        1,
        "if ang_dist < PI",
        "if super::measured(ang_dist, y0) < PI",
    ),
    edit(
        2,
        "TRANSITION_Z)\n}",
        "TRANSITION_Z).inspect(|_| super::count_arc(super::SPLITS))\n}",
    ),
];

/// None of these may be left: an angle function of the library's, or an operation that rounds once for two.
const FORBIDDEN: [&str; 8] = [
    ".atan2(",
    "f64::atan2",
    ".acos(",
    ".sin_cos(",
    ".sin(",
    ".cos(",
    ".tan(",
    "mul_add",
];

/// Writes the reference to OUT_DIR, twice, and sets the condition `reference`, if the source can be had.
pub fn prepare(repository: &Path) {
    println!("cargo::rustc-check-cfg=cfg(reference)");
    println!("cargo::rerun-if-env-changed={VARIABLE}");
    let named = env::var_os(VARIABLE);
    let folder = repository.join(named.as_deref().unwrap_or(FOLDER.as_ref()));
    println!("cargo::rerun-if-changed={}", folder.display());
    if !folder.is_dir() {
        // Only a folder that nobody has named may be missing.
        if named.is_some() {
            println!(
                "cargo::error={VARIABLE} names no folder: {}",
                folder.display()
            );
        }
        return;
    }
    let written = write(&folder, "plain_reference.rs", [&[], &[]])
        .and_then(|()| write(&folder, "reference.rs", [&COO3D_CALLS, &FINDER_CALLS]));
    match written {
        Ok(()) => println!("cargo::rustc-cfg=reference"),
        Err(message) => println!("cargo::error=the reference: {message}"),
    }
}

/// Writes the reference with document 01's angle functions and document 02's changes, and with these edits more of its two files.
fn write(folder: &Path, name: &str, [in_coo3d, in_finder]: [&[Edit]; 2]) -> Result<(), String> {
    let lib = read(folder, LIB)?;
    let coo3d = read(folder, COO3D)?;
    let coo3d = edited(coo3d, COO3D, &[&COO3D_EDITS, &LONGITUDE_EDITS, in_coo3d])?;
    let finder = read(folder, FINDER)?;
    let finder = edited(finder, FINDER, &[&FINDER_EDITS, &SHORT_ARC_EDITS])?;
    let finder = exchanged(&finder, FINDER, &RULE_BRANCHES)?;
    let finder = edited(finder, FINDER, &[&SECOND_TRY_EDITS, in_finder])?;
    let mut text = String::new();
    for start in LIB_ITEMS {
        text += &item(&lib, start)?;
    }
    let allowed = "#[allow(dead_code, clippy::all)]\npub mod";
    text += &format!("{allowed} sph_geom {{\npub mod coo3d {{\n{coo3d}\n}}\n}}\n");
    text += &format!("{allowed} special_points_finder {{\n{finder}\n}}\n");
    let out = PathBuf::from(env::var_os("OUT_DIR").expect("cargo sets OUT_DIR"));
    fs::write(out.join(name), text).map_err(|error| format!("{name}: {error}"))
}

fn read(folder: &Path, name: &str) -> Result<String, String> {
    let path = folder.join(name);
    println!("cargo::rerun-if-changed={}", path.display());
    fs::read_to_string(&path).map_err(|error| format!("{}: {error}", path.display()))
}

fn edited(mut text: String, name: &str, edits: &[&[Edit]]) -> Result<String, String> {
    for Edit { places, from, to } in edits.iter().copied().flatten() {
        check_count(&text, name, from, *places)?;
        text = text.replace(from, to);
    }
    match FORBIDDEN.iter().find(|word| text.contains(*word)) {
        Some(word) => Err(format!("{name} still has `{word}`")),
        None => Ok(text),
    }
}

/// With the two branches exchanged, and nothing else.
fn exchanged(text: &str, name: &str, branches: &Branches) -> Result<String, String> {
    let Branches {
        first,
        second,
        next,
    } = branches;
    for start in [first, second, next] {
        check_count(text, name, start, 1)?;
    }
    let parted = text.split_once(first).and_then(|(before, rest)| {
        let (one, rest) = rest.split_once(&format!("}} else {second}"))?;
        let (other, after) = rest.split_once(next)?;
        Some([before, one, other, after])
    });
    let [before, one, other, after] =
        parted.ok_or(format!("{name} does not have `{second}` after `{first}`"))?;
    if [one, other].iter().any(|part| part.contains("\n    }")) {
        return Err(format!("{name} has a branch more beside `{second}`"));
    }
    Ok([before, second, other, "} else ", first, one, next, after].concat())
}

fn check_count(text: &str, name: &str, part: &str, places: usize) -> Result<(), String> {
    match text.matches(part).count() {
        found if found == places => Ok(()),
        found => Err(format!("{name} has `{part}` {found} times, not {places}")),
    }
}

/// The item that begins with `start`, to the first line that ends it: not indented, and with a semicolon or a brace at its end.
fn item(lib: &str, start: &str) -> Result<String, String> {
    let found = lib.lines().filter(|line| line.starts_with(start)).count();
    if found != 1 {
        return Err(format!("{LIB} has `{start}` {found} times, not 1"));
    }
    let mut text = String::new();
    for line in lib.lines().skip_while(|line| !line.starts_with(start)) {
        text += line;
        text.push('\n');
        if !line.starts_with(' ') && line.ends_with([';', '}']) {
            return Ok(text);
        }
    }
    Err(format!("{LIB} has no end of `{start}`"))
}
