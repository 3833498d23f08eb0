//! What texts are taken, and which bytes they give.

use crate::process::finder;
use std::f64::consts::PI;

fn written(text: &str) -> Vec<u8> {
    finder(&["write"], text.as_bytes()).done()
}

/// The bytes of a command.
fn bytes(code: u8, floats: &[f64], bytes: &[u8]) -> Vec<u8> {
    let floats = floats.iter().flat_map(|x| x.to_le_bytes());
    [code]
        .into_iter()
        .chain(floats)
        .chain(bytes.iter().copied())
        .collect()
}

const PLAIN: &str = "precision 1e-9\nallowance 20\narc 0.1 0.2 0.35 0.25\nend\n";

#[test]
fn every_command() {
    let text = "precision 1e-9\nallowance 20\narc 0.10 +0.20 0.35 .25\ncone-in-equator 0.3 0.1 0.05 north\n\
                cone-in-cap 0.8 0.4 0.7 5e-2 west south\nparallel 0.1 0.2 0.3 0.9 0.5\n\
                two-arcs 0.1 0.2 0.3 0.4 0.5 0.6 0.7 -.8\nend\n";
    let job = [
        bytes(1, &[1e-9], &[]),
        bytes(2, &[], &[20]),
        bytes(3, &[0.1, 0.2, 0.35, 0.25], &[]),
        bytes(4, &[0.3, 0.1, 0.05], &[1]),
        bytes(5, &[0.8, 0.4, 0.7, 0.05], &[0, 0]),
        bytes(6, &[0.1, 0.2, 0.3, 0.9, 0.5], &[]),
        bytes(7, &[0.1, 0.2, 0.3, 0.4, 0.5, 0.6, 0.7, -0.8], &[]),
        bytes(0, &[], &[]),
    ];
    assert_eq!(written(text), job.concat());
}

#[test]
fn line_ends_marks_comments_and_blanks() {
    let job = written(PLAIN);
    let variants = [
        PLAIN.replace('\n', "\r\n"),
        format!("\u{FEFF}{PLAIN}"),
        format!("\u{FEFF}# a comment\r\n{PLAIN}"),
        PLAIN.replace(' ', "\t \t"),
        PLAIN.replace('\n', " \t # a comment: ½ # more\n\n"),
        PLAIN.replace("arc", "  arc"),
        PLAIN.replace("20\n", "20#none\n"),
        PLAIN.trim_end().to_string(),
        PLAIN.trim_end().replace('\n', "\r\n") + "\r",
        format!("{PLAIN}\n# after the end\n \t\n"),
        format!("radians\n{PLAIN}"),
    ];
    for text in variants {
        assert_eq!(written(&text), job, "{text:?}");
    }
}

#[test]
fn degrees_are_for_angles_alone() {
    let text = "degrees\nprecision 90\narc 90 -45 360 1e-3\ncone-in-equator 90 45 1 1\ncone-in-cap 90 30 45 1 east 0\nparallel 10 20 30 40 0.5\n\
                two-arcs 10 20 30 40 50 60 70 -80\nradians\narc 90 -45 360 1e-3\ndegrees\narc bits:3FF0000000000000 1 bits:7ff4000000000001 -0\nend\n";
    let degree = PI / 180.0;
    let nan = f64::from_bits(0x7FF4_0000_0000_0001);
    let job = [
        bytes(1, &[90.0], &[]),
        bytes(3, &[90.0, -45.0, 360.0, 1e-3].map(|x| x * degree), &[]),
        bytes(4, &[90.0, 45.0, 1.0], &[1]),
        bytes(5, &[90.0, 30.0 * degree, 45.0, 1.0], &[1, 0]),
        bytes(
            6,
            &[
                10.0 * degree,
                20.0 * degree,
                30.0 * degree,
                40.0 * degree,
                0.5,
            ],
            &[],
        ),
        bytes(
            7,
            &[10.0, 20.0, 30.0, 40.0, 50.0, 60.0, 70.0, -80.0].map(|x| x * degree),
            &[],
        ),
        bytes(3, &[90.0, -45.0, 360.0, 1e-3], &[]),
        bytes(3, &[1.0, degree, nan, -0.0], &[]),
        bytes(0, &[], &[]),
    ];
    assert_eq!(written(text), job.concat());
}

#[test]
fn bits_and_numbers_for_flags() {
    let text = "precision bits:fff8DEADbeef0001\ncone-in-cap 0 0 0 1 255 2\nend\n";
    let job = [
        bytes(1, &[f64::from_bits(0xFFF8_DEAD_BEEF_0001)], &[]),
        bytes(5, &[0.0, 0.0, 0.0, 1.0], &[255, 2]),
        vec![0],
    ]
    .concat();
    assert_eq!(written(text), job);
    let shown = "precision bits:FFF8DEADBEEF0001\ncone-in-cap 0 0 0 1 255 2\nend\n";
    assert_eq!(finder(&["show"], &job).text(), shown);
}

#[test]
fn shortest_decimals() {
    let text = "precision 0.1000\nprecision 100\nprecision -0.0\nprecision 1e300\nprecision 5e-324\nprecision 123456789012345680\nprecision 0.30000000000000004\nend\n";
    let shown = "precision 0.1\nprecision 100\nprecision -0\nprecision 1e300\nprecision 5e-324\nprecision 1.2345678901234568e17\nprecision 0.30000000000000004\nend\n";
    assert_eq!(finder(&["show"], text.as_bytes()).text(), shown);
}

/// In tables a float has a point or an exponent, so that no reader takes it for a whole number: of those −0 has no sign.
#[test]
fn floats_of_tables() {
    let text = "precision 1\nallowance 0\ncone-in-equator -0 1 1e-30 north\nend\n";
    let json = finder(&["list", "--format", "json"], text.as_bytes()).text();
    for member in [
        "\"precision\": 1.0,",
        "\"z\": -0.0,",
        "\"z0\": 1.0, \"radius\": 1e-30, \"east\": null, \"north\": 1,",
        "\"height\": -0.0}",
    ] {
        assert!(json.contains(member), "no {member} in {json}");
    }
    let csv = finder(&["list", "--format", "csv"], text.as_bytes()).text();
    assert!(csv.contains(",-0.0,,1.0,1e-30,,1,0,"), "{csv}");
    assert!(csv.ends_with(",-0.0\n"), "{csv}");
}

/// Each status in words, 0 with what is set and found.
#[test]
fn listed() {
    let text = "arc 0 0 1 1\nprecision bits:7FF0000000000000\nprecision 1e-9\nallowance 1\narc 2.3275 0.5101 2.0596 0.7856\n\
                cone-in-equator 0.276 0.199 0.1 7\ncone-in-equator 0.276 2 0.1 north\narc 0 0.8 3.141592653589793 -0.8\n\
                two-arcs 0 0 1 0 0.5 0 2 0\ntwo-arcs 7 0 1 0 0.5 0 2 0\ntwo-arcs 0 0 1 0 0.5 0 2 bits:7FF0000000000000\nend\n";
    let listing = "   1  arc 0 0 1 1
          refused, status 6: precision or allowance is not set
   2  precision bits:7FF0000000000000
          refused, status 7: a float isn't finite
   3  precision 1e-9
          set
   4  allowance 1
          set
   5  arc 2.3275 0.5101 2.0596 0.7856
          equator: found after 1 step at longitude 2.2111";
    let listed = finder(&["list"], text.as_bytes()).text();
    let start: String = listed.chars().take(listing.len()).collect();
    assert_eq!(start, listing);
    let end = "   6  cone-in-equator 0.276 0.199 0.1 7
          refused, status 8: a north or east byte is neither 0 nor 1
   7  cone-in-equator 0.276 2 0.1 north
          refused, status 9: an operand is outside its range
   8  arc 0 0.8 3.141592653589793 -0.8
          refused, status 10: the arc can't be split
   9  two-arcs 0 0 1 0 0.5 0 2 0
          refused, status 12: the arcs' planes can't be told apart, or an arc has none
  10  two-arcs 7 0 1 0 0.5 0 2 0
          refused, status 9: an operand is outside its range
  11  two-arcs 0 0 1 0 0.5 0 2 bits:7FF0000000000000
          refused, status 7: a float isn't finite
";
    assert!(listed.ends_with(end), "{listed}");
}

/// Each kind without a point in words, with its steps where a walk has been begun.
#[test]
fn listed_without_points() {
    let table = [
        (
            0,
            "arc 0 1.5707963267948966 3.141592653589793 0.8",
            "no such piece",
        ),
        (20, "arc 0.1 0 0.3 0", "equator: no walk"),
        (
            0,
            "cone-in-equator 0.6666666666666666 0.1 0.05 north",
            "height rejected after 0 steps",
        ),
        (
            20,
            "cone-in-equator 0.6666666666666666 0.1 0.05 north",
            "height rejected after 1 step",
        ),
        (
            20,
            "cone-in-equator 0.28 0.5 0.39 north",
            "height rejected after 6 steps",
        ),
        (20, "parallel 0 0 1 0.1 0.9", "height not between the ends"),
        (
            20,
            "parallel 0 0.8 3.141592653589793 -0.8 0.5",
            "neither root passes",
        ),
        (
            20,
            "arc 1.2842388656527222 -0.2678237116066448 1.2991747463510848 -0.25479556955392063",
            "equator: neither root passes after 4 steps",
        ),
        (
            20,
            "arc 1 -0.2 2.4 -0.03444042202408743",
            "equator: after a walk of 3 steps not found by halving",
        ),
        (20, "two-arcs 0 0 1 0.1 2 -0.1 2.1 0.3", "no crossing found"),
    ];
    for (allowance, command, words) in table {
        let text = format!("precision 1e-9\nallowance {allowance}\n{command}\nend\n");
        let listed = finder(&["list"], text.as_bytes()).text();
        let expected = format!("          set\n   3  {command}\n          {words}\n");
        assert!(listed.ends_with(&expected), "{listed}");
    }
}

/// Where two arcs cross can be told by hand here: on the equator, halfway between symmetric ends, at a pole.
#[test]
fn two_arcs_that_cross() {
    let table = [
        ("1 0 2 0 1.5 -0.3 1.5 0.4", [1.5, 0.0]),
        ("1.5 -0.3 1.5 0.4 2 0 1 0", [1.5, 0.0]),
        ("6 0 0.5 0 0.25 0.3 0.25 -0.4", [0.25, 0.0]),
        ("1 -0.1 1.2 0.1 1 0.1 1.2 -0.1", [1.1, 0.0]),
        (
            "0.5 0.2 3.5 0.2 2 -1.5 2 1.5",
            [2.0, (0.2_f64.tan() / 1.5_f64.cos()).atan()],
        ),
        (
            "0 1.2 3.141592653589793 1.3 1.5 1.25 4.641592653589793 1.1",
            [0.0, PI / 2.0],
        ),
    ];
    for (operands, [lon, lat]) in table {
        let text = format!("two-arcs {operands}\nend\n");
        let listed = finder(&["list"], text.as_bytes()).text();
        let (_, point) = listed.split_once("found at longitude ").expect(&listed);
        let (found_lon, found_lat) = point.trim_end().split_once(", latitude ").expect(point);
        let off = |found: &str, at: f64| (found.parse::<f64>().expect(found) - at).abs();
        // At the pole any longitude is right.
        let is_lon = off(found_lon, lon) < 1e-9 || lat == PI / 2.0;
        assert!(is_lon && off(found_lat, lat) < 1e-9, "{listed}");
    }
}

/// The crossing lies beyond an end; on the far side of a long arc; the planes are the same, are none, or can't be told by their lengths.
#[test]
fn two_arcs_that_do_not_cross() {
    let apart = "no crossing found";
    let refused = "refused, status 12: the arcs' planes can't be told apart, or an arc has none";
    let table = [
        ("1 0 2 0 2.5 -0.3 2.5 0.4", apart),
        ("1 0 2 0 1.5 0.1 1.5 0.4", apart),
        ("1 0 2 0 4.6 -0.3 4.6 0.4", apart),
        ("0.5 0 3.4 0 5.1 -0.3 5.1 0.4", apart),
        ("1 0 2 0 1.5 0 3 0", refused),
        ("1 0.3 2 0.4 1 0.3 2 0.4", refused),
        ("1 0.3 2 0.4 2 0.4 1 0.3", refused),
        ("1 0.3 1 0.3 0.9 0.3 1.2 0.3", refused),
        ("0 0.8 3.141592653589793 -0.8 1 0 2 1", refused),
        ("1 -1e-170 1 1e-170 0.9 -0.1 1.1 0.1", refused),
    ];
    for (operands, words) in table {
        let text = format!("two-arcs {operands}\nend\n");
        let listed = finder(&["list"], text.as_bytes()).text();
        assert!(
            listed.ends_with(&format!("          {words}\n")),
            "{listed}"
        );
    }
}

#[test]
fn listed_in_degrees() {
    let text = "degrees\nprecision 1e-9\nallowance 20\narc 90 bits:7FF0000000000000 45 -30\ncone-in-equator 0.276 0.199 0.1 north\nradians\narc 1e307 0 0 0\ndegrees\nparallel 30 0 60 45 0.5\ntwo-arcs 10 30 30 30 20 -40 20 80\nend\n";
    let listing = "angles in degrees
   1  precision 1e-9
          set
   2  allowance 20
          set
   3  arc 90.0000000000 bits:7FF0000000000000 45.0000000000 -30.0000000000
          refused, status 7: a float isn't finite
   4  cone-in-equator 0.276 0.199 0.1 north
          found after 5 steps at height 0.2712348311075476
   5  arc bits:7FAC7B1F3CAC7433 0.0000000000 0.0000000000 0.0000000000
          refused, status 9: an operand is outside its range
   6  parallel 30.0000000000 0.0000000000 60.0000000000 45.0000000000 0.5
          found at longitude ";
    let listed = finder(&["list", "--degrees"], text.as_bytes()).text();
    // Halfway the first arc is at the latitude atan(tan(30°) / cos(10°)), on the meridian that is the second.
    let end = "\n   7  two-arcs 10.0000000000 30.0000000000 30.0000000000 30.0000000000 20.0000000000 -40.0000000000 20.0000000000 80.0000000000
          found at longitude 20.0000000000, latitude 30.3812551425\n";
    let rest = listed.strip_prefix(listing).expect(&listed);
    let rest = rest.strip_suffix(end).expect(&listed);
    // Where sin(lat) is a half the latitude is 30 degrees, and the longitude lies on the great circle.
    let (lon, lat) = rest.trim_end().split_once(", latitude ").expect(rest);
    assert_eq!(lat, "30.0000000000");
    let lon: f64 = lon.parse().expect(lon);
    let expected = (30_f64.to_radians().tan() * 30_f64.to_radians().sin())
        .asin()
        .to_degrees()
        + 30.0;
    assert!((lon - expected).abs() < 1e-9, "{lon} is not {expected}");
}
