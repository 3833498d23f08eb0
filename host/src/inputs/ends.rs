//! The ends of arcs.

use super::{
    asin, atan, cos, second_try, short, sin, Class, Ends, BESIDE_LONGITUDE_0, TRANSITION_Z,
};
use crate::angles::{atan2, sin_cos};
use crate::random::{moved, ten_to, Random};
use std::f64::consts::{FRAC_PI_2, FRAC_PI_4, PI, TAU};

pub const CLASSES: [Class<Ends>; 33] = [
    ("uniform", |random| {
        joined(on_sphere(random), on_sphere(random))
    }),
    ("short", |random| {
        let start = on_sphere(random);
        to_distance(random, start, -12.0, -1.0)
    }),
    ("camera edges", camera_edges),
    ("about one arcsecond", short::about_limit),
    ("of one arcsecond", short::at_limit),
    (
        "about one arcsecond and near-meridian",
        short::about_both_limits,
    ),
    ("no longer flat", short::no_longer_flat),
    ("far from its special point", second_try::far_from_its_point),
    ("from the vertex of its circle", second_try::from_vertex),
    ("along the equator", second_try::along_equator),
    (
        "short, special at the transition",
        second_try::special_at_transition,
    ),
    ("about a point in the equator", special_in_eqr),
    ("about a point in a cap", special_in_cap),
    ("about a point at a border", special_at_border),
    ("about points in two quarters", special_in_two_quarters),
    ("from a special point", from_special),
    ("around the transition", around_transition),
    ("in one cap", in_one_cap),
    ("from cap to cap", from_cap_to_cap),
    ("across longitude 0", across_longitude_0),
    (BESIDE_LONGITUDE_0, beside_longitude_0),
    ("on quarters' borders", on_borders),
    ("across quarters' borders", across_borders),
    ("at the poles", at_poles),
    ("close to the poles", close_to_poles),
    ("equal points", equal_points),
    ("antipodal", antipodal),
    ("equal longitudes", equal_longitudes),
    ("equal latitudes", equal_latitudes),
    ("near-meridian planes", near_meridian),
    ("short, beside the y axis", short_beside_y_axis),
    ("boundary values", boundary_values),
    ("kept", |random| random.one_of(&KEPT)),
];

/// Lost points, panics and other arcs that every long run looks at.
const KEPT: [Ends; 22] = [
    // Document 01: the cross product is zero, status 10.
    [0.0, 0.8, PI, -0.8],
    // An edge of 13 degrees over longitude 0: the piece before it has a special point, and is not looked at.
    [
        5.653564405055805,
        1.292491918928406,
        0.3038482837732559,
        1.4025091765208624,
    ],
    // In the south, over 17 degrees.
    [
        0.37552602047256867,
        -1.5011430954409108,
        5.100515243810453,
        -1.2819248996380908,
    ],
    // Over longitude 0 too, but without a special point: turned by π/2, where all of it is looked at, it gets none either.
    [
        5.300472554243618,
        -1.381271999891891,
        0.27681685882129514,
        -1.470199322837253,
    ],
    // An arc of 132 degrees: its point in the south cap is not on the arc but on the rest of its circle.
    [
        3.454943948368684,
        -0.7361268371813542,
        4.954863277491432,
        1.5400365314636468,
    ],
    // From 3e-7 off the pole: a height that the walk has reached is not between the piece's ends.
    [
        2.4787649113079726,
        -1.5707960128451874,
        2.628639564916842,
        1.4219223287738358,
    ],
    // An edge of 1.1 degrees with a special point at its end: neither root passes.
    [
        1.2842388656527222,
        -0.2678237116066448,
        1.2991747463510848,
        -0.25479556955392063,
    ],
    // An edge of 5 degrees with a special point at its end: the walk may reach that end's own height, kind 4 in the equator.
    [
        0.42677966496770586,
        -0.6461123305380823,
        0.3691302060663067,
        -0.7155966999733249,
    ],
    // An edge of 1.6 degrees that starts beside T: neither root passes, status 10.
    [
        6.165580374845479,
        0.7297276562269666,
        6.183220448695921,
        0.7059050760776105,
    ],
    // Kinds that are seldom met in a slot of a cap. In the south's first slot, kind 4.
    [
        0.1816778035289496,
        -1.5707962883028468,
        4.26884266747075,
        -1.570793428530549,
    ],
    // In the second, kinds 4 and 5.
    [
        2.012242294782802,
        -1.5707962736080356,
        0.269194960403493,
        -1.570796278241366,
    ],
    [
        0.8670490485521686,
        -1.0868786920554634,
        1.7250617115441185,
        -0.9417814094172982,
    ],
    // In the north's first slot, kind 4.
    [
        4.626854291877986,
        1.5707962315620425,
        1.0178186596470695,
        -0.828738640758121,
    ],
    // In the second, kinds 4 and 5.
    [
        2.784786911512229,
        1.570796296184804,
        4.274168697634087,
        1.5707925045622864,
    ],
    [
        2.7389400630263547,
        1.0236653468532058,
        3.1960199840516066,
        0.894857053325069,
    ],
    // Short and near-meridian together. With the near-meridian rule first: kind 5, now 3; status 10, now 0; two whose point has moved, and one whose point has not; kind
    // 1, now 3; kind 3, now 1.
    [
        1.3469751312783713,
        -0.20277757748692687,
        1.3469787116684284,
        -0.20277447478290958,
    ],
    [
        1.5707963267948966,
        -0.7297276562269666,
        1.5707963267948966,
        -0.729722856256422,
    ],
    [
        1.1979580663138278,
        0.40328799376580643,
        1.197957550732241,
        0.40328846957654135,
    ],
    [
        5.123817391144501,
        0.7297243534662465,
        5.123820907599753,
        0.7297283580722869,
    ],
    [
        4.71209442236714,
        -0.0002500286362423794,
        4.712091215095762,
        -0.0002527510528239878,
    ],
    [
        1.159366839177916,
        0.7297255702192154,
        1.159363326780854,
        0.7297295701930684,
    ],
    [
        1.982227155737799,
        0.7297240006347232,
        1.9822306837514885,
        0.7297280183768509,
    ],
];

/// Longitude and latitude of one end, and the latitude of another with longitude π/2, as patterns: the y0 of their plane is 1e-14.
const MERIDIAN_LIMIT: [[u64; 3]; 4] = [
    [
        0x3FF9_21FB_5444_2D50,
        0xBFB9_5948_56A4_3FBE,
        0x3FD8_CBD1_7E9E_CD22,
    ],
    [
        0x3FF9_21FB_5444_2D38,
        0x3FDE_B9FA_E482_FAC7,
        0x3FF1_03F5_BDBA_48BF,
    ],
    [
        0x3FF9_21FB_5444_2D49,
        0xBFD9_ADFF_E694_A5E3,
        0x3FF5_DC19_86EC_26A8,
    ],
    [
        0x3FF9_21FB_5444_2D55,
        0xBFE5_9D86_2569_11BD,
        0x3FF2_77DD_0456_D3B8,
    ],
];

pub type Point = [f64; 2];

/// Of any class.
pub fn any(random: &mut Random) -> Ends {
    let (_, draw) = random.one_of(&CLASSES);
    draw(random)
}

/// The two points, brought into range.
pub fn joined([lon1, lat1]: Point, [lon2, lat2]: Point) -> Ends {
    [
        in_turn(lon1),
        in_half_turn(lat1),
        in_turn(lon2),
        in_half_turn(lat2),
    ]
}

/// A longitude in [0, 2π); −0 stays.
fn in_turn(lon: f64) -> f64 {
    let lon = if lon < 0.0 { lon + TAU } else { lon };
    if lon < TAU {
        lon
    } else {
        (lon - TAU).max(0.0) % TAU
    }
}

fn in_half_turn(lat: f64) -> f64 {
    lat.clamp(-FRAC_PI_2, FRAC_PI_2)
}

pub fn transition_latitude() -> f64 {
    asin(TRANSITION_Z)
}

pub fn any_lon(random: &mut Random) -> f64 {
    random.between(0.0, TAU)
}

fn any_lat(random: &mut Random) -> f64 {
    asin(random.between(-1.0, 1.0))
}

pub fn on_sphere(random: &mut Random) -> Point {
    [any_lon(random), any_lat(random)]
}

/// A latitude within a cap, north or south.
fn cap_lat(random: &mut Random) -> f64 {
    let lat = asin(random.between(TRANSITION_Z, 1.0));
    random.signed(lat)
}

/// The point at this distance, in the direction that is so far east of north.
pub fn towards([lon, lat]: Point, bearing: f64, distance: f64) -> Point {
    let (sin_lon, cos_lon) = sin_cos(lon);
    let (sin_lat, cos_lat) = sin_cos(lat);
    let (along, ahead) = sin_cos(distance);
    let (east, north) = (along * sin(bearing), along * cos(bearing));
    let out = ahead * cos_lat - north * sin_lat;
    let (x, y) = (
        out * cos_lon - east * sin_lon,
        out * sin_lon + east * cos_lon,
    );
    let z = ahead * sin_lat + north * cos_lat;
    [atan2(y, x), atan2(z, (x * x + y * y).sqrt())]
}

pub fn at_distance(random: &mut Random, start: Point, distance: f64) -> Point {
    towards(start, any_lon(random), distance)
}

/// From `start` over a distance of ten to a power between the two given.
fn to_distance(random: &mut Random, start: Point, low: f64, high: f64) -> Ends {
    let distance = random.power_of_ten(low, high);
    joined(start, at_distance(random, start, distance))
}

/// From `start` over at most 20 degrees.
pub fn camera_edge(random: &mut Random, start: Point) -> Ends {
    let distance = random.between(0.0, 20f64.to_radians());
    joined(start, at_distance(random, start, distance))
}

/// All over the sky.
pub fn camera_edges(random: &mut Random) -> Ends {
    let start = on_sphere(random);
    camera_edge(random, start)
}

/// Through `point` in this direction, to lengths of ten to a power between the two given on either side.
fn through(random: &mut Random, point: Point, bearing: f64, low: f64, high: f64) -> Ends {
    let [back, ahead] = [(); 2].map(|()| random.power_of_ten(low, high));
    let bearing = if random.flip() { bearing } else { bearing + PI };
    joined(
        towards(point, bearing, -back),
        towards(point, bearing, ahead),
    )
}

/// The direction in which an arc has a slope of one on the projection plane, for a derivative of the longitude by the height.
pub fn bearing_of(derivative: f64, lat: f64) -> f64 {
    atan(derivative * cos(lat) * cos(lat))
}

/// Around a special point of any region, or two of a cap.
pub fn special(random: &mut Random) -> Ends {
    let draws = [
        special_in_eqr,
        special_in_cap,
        special_at_border,
        special_in_two_quarters,
    ];
    random.one_of(&draws)(random)
}

fn special_in_eqr(random: &mut Random) -> Ends {
    let (point, bearing) = point_in_eqr(random);
    through(random, point, bearing, -12.0, -0.3)
}

fn special_in_cap(random: &mut Random) -> Ends {
    let (point, bearing) = point_in_cap(random);
    through(random, point, bearing, -12.0, -0.3)
}

/// Around a special point in a cap so close to a quarter's border that the arc may cross it.
fn special_at_border(random: &mut Random) -> Ends {
    let power = random.between(-12.0, -0.5);
    let off = ten_to(power);
    let in_quarter = random.one_of(&[off, FRAC_PI_2 - off]);
    let (point, bearing) = point_in_quarter(random, in_quarter);
    through(random, point, bearing, power - 1.0, power + 2.0)
}

/// A point of the equatorial region and the direction in which it is special: that derivative is ±3π/8.
pub fn point_in_eqr(random: &mut Random) -> (Point, f64) {
    let lat = asin(random.between(-TRANSITION_Z, TRANSITION_Z));
    let derivative = random.signed(1.5 * FRAC_PI_4);
    ([any_lon(random), lat], bearing_of(derivative, lat))
}

pub fn point_in_cap(random: &mut Random) -> (Point, f64) {
    let in_quarter = random.between(0.0, FRAC_PI_2);
    point_in_quarter(random, in_quarter)
}

/// The same in a cap: that derivative is half the way in longitude to either border of the quarter, over 1 − |z|.
fn point_in_quarter(random: &mut Random, in_quarter: f64) -> (Point, f64) {
    let lat = cap_lat(random);
    let way = random.one_of(&[in_quarter, in_quarter - FRAC_PI_2]);
    let derivative = (0.5 * way / (1.0 - sin(lat).abs())).copysign(way * lat);
    let lon = random.below(4) as f64 * FRAC_PI_2 + in_quarter;
    ([lon, lat], bearing_of(derivative, lat))
}

/// With a special point in the first and in the last of three quarters: two next to each other have one each by rounding only. Such an arc
/// is highest about the middle of the quarter between, at a latitude of about 0.97, and ends soon after it. That quarter is not 0, as the
/// reference takes no piece in quarter 3 of an arc across longitude 0.
fn special_in_two_quarters(random: &mut Random) -> Ends {
    let middle = (1 + random.below(3)) as f64 * FRAC_PI_2 + FRAC_PI_4;
    let top = random.between(-0.02, 0.02);
    let top_lat = random.between(0.96, 0.99);
    let steepness = random.signed(sin(top_lat) / cos(top_lat));
    let [west, east] = [-1.0, 1.0].map(|side| side * (FRAC_PI_4 + random.between(0.05, 0.15)));
    let [start, end] = [west, east].map(|lon| [middle + lon, atan(steepness * cos(lon - top))]);
    joined(start, end)
}

/// From a special point or next to it, so that the walk may end at the end's own height.
fn from_special(random: &mut Random) -> Ends {
    let ([lon, lat], bearing) = random.one_of(&[point_in_eqr, point_in_cap])(random);
    let distance = random.power_of_ten(-2.0, -0.3);
    let end = towards([lon, lat], bearing, random.signed(distance));
    joined([lon, random.nudged(lat)], end)
}

fn around_transition(random: &mut Random) -> Ends {
    let off = random.power_of_ten(-17.0, -1.0);
    let lat = transition_latitude() + random.signed(off);
    let lat = random.nudged(lat);
    let start = [any_lon(random), random.signed(lat)];
    to_distance(random, start, -8.0, -0.5)
}

fn in_one_cap(random: &mut Random) -> Ends {
    let lat1 = cap_lat(random);
    let lat2 = cap_lat(random).copysign(lat1);
    joined([any_lon(random), lat1], [any_lon(random), lat2])
}

fn from_cap_to_cap(random: &mut Random) -> Ends {
    let lat1 = cap_lat(random);
    let lat2 = cap_lat(random).copysign(-lat1);
    joined([any_lon(random), lat1], [any_lon(random), lat2])
}

fn across_longitude_0(random: &mut Random) -> Ends {
    let east = random.power_of_ten(-17.0, 0.2);
    let west = random.power_of_ten(-15.0, 0.2);
    let lat1 = random.one_of(&[any_lat, cap_lat])(random);
    let lat2 = if random.flip() {
        lat1 + random.between(-0.1, 0.1)
    } else {
        any_lat(random)
    };
    joined([east, lat1], [TAU - west, lat2])
}

/// Both ends so close to longitude 0 that a crossing may have a tiny negative y: that angle and 2π come to 2π.
pub fn beside_longitude_0(random: &mut Random) -> Ends {
    let lon1 = if random.flip() {
        random.one_of(&[0.0, -0.0])
    } else {
        lon_beside_0(random)
    };
    let lat1 = if random.flip() {
        let lat = moved(transition_latitude(), random.one_of(&[-4, -3, -2, 2, 3, 4]));
        random.signed(lat)
    } else {
        random.one_of(&[any_lat, cap_lat])(random)
    };
    let lat2 = random.one_of(&[any_lat, cap_lat])(random);
    joined([lon1, lat1], [lon_beside_0(random), lat2])
}

/// A subnormal number, another tiny one, or one of the last floats below 2π.
pub fn lon_beside_0(random: &mut Random) -> f64 {
    match random.below(4) {
        0 => {
            let digits = random.below(53);
            f64::from_bits(1 + random.below(1 << digits))
        }
        1 | 2 => random.power_of_ten(-307.0, -16.0),
        _ => moved(TAU, -1 - random.below(4) as i64),
    }
}

fn border(random: &mut Random) -> f64 {
    let border = random.below(5) as f64 * FRAC_PI_2;
    random.nudged(border)
}

fn on_borders(random: &mut Random) -> Ends {
    let lat1 = random.one_of(&[any_lat, cap_lat])(random);
    let start = [border(random), lat1];
    match random.below(3) {
        0 => joined(start, [border(random), any_lat(random)]),
        1 => joined(start, [border(random), cap_lat(random).copysign(lat1)]),
        _ => camera_edge(random, start),
    }
}

pub fn on_borders_or_boundaries(random: &mut Random) -> Ends {
    random.one_of(&[on_borders, boundary_values])(random)
}

/// Over a border, within a cap, with a length of chance on either side.
fn across_borders(random: &mut Random) -> Ends {
    let border = random.below(4) as f64 * FRAC_PI_2;
    let (east, west) = (
        random.power_of_ten(-14.0, 0.0),
        random.power_of_ten(-14.0, 0.0),
    );
    let lat1 = cap_lat(random);
    let off = random.power_of_ten(-15.0, 0.0);
    joined(
        [border + east, lat1],
        [border - west, lat1 + random.signed(off)],
    )
}

fn at_poles(random: &mut Random) -> Ends {
    let off = if random.flip() {
        0.0
    } else {
        random.power_of_ten(-17.0, -1.0)
    };
    let lat1 = random.signed(FRAC_PI_2 - off);
    let lat2 = random.one_of(&[any_lat, cap_lat])(random);
    joined([any_lon(random), lat1], [any_lon(random), lat2])
}

/// So close to a pole that the heights of a piece's ends are nearly equal.
fn close_to_poles(random: &mut Random) -> Ends {
    let [off1, off2] = [(); 2].map(|()| random.power_of_ten(-9.0, -5.0));
    let lat1 = random.signed(FRAC_PI_2 - off1);
    let lat2 = match random.below(3) {
        0 => (FRAC_PI_2 - off2).copysign(lat1),
        1 => cap_lat(random),
        _ => any_lat(random),
    };
    joined([any_lon(random), lat1], [any_lon(random), lat2])
}

pub fn equal_points(random: &mut Random) -> Ends {
    let point = random.one_of(&[on_sphere, boundary_point])(random);
    joined(point, point)
}

pub fn antipodal(random: &mut Random) -> Ends {
    let [lon, lat] = random.one_of(&[on_sphere, boundary_point])(random);
    let opposite = [if lon < PI { lon + PI } else { lon - PI }, -lat];
    if random.flip() {
        joined([lon, lat], opposite)
    } else {
        let distance = random.power_of_ten(-16.0, -3.0);
        joined([lon, lat], at_distance(random, opposite, distance))
    }
}

fn equal_longitudes(random: &mut Random) -> Ends {
    let lon = random.one_of(&[any_lon, border])(random);
    joined(
        [lon, any_lat(random)],
        [random.nudged(lon), any_lat(random)],
    )
}

fn equal_latitudes(random: &mut Random) -> Ends {
    let lat = random.one_of(&[any_lat, cap_lat, boundary_lat])(random);
    joined(
        [any_lon(random), lat],
        [any_lon(random), random.nudged(lat)],
    )
}

/// In a plane that holds the y axis, or nearly: about the limit 1e-14 of the near-meridian rule.
pub fn near_meridian(random: &mut Random) -> Ends {
    let off = random.power_of_ten(-17.0, -12.0);
    let off = random.signed(off);
    if random.flip() {
        let lon = random.one_of(&[FRAC_PI_2, 3.0 * FRAC_PI_2]);
        let start = [lon, any_lat(random)];
        return joined(start, [lon + off, any_lat(random)]);
    }
    let lons = [any_lon(random), any_lon(random)];
    beside_y_axis(random, lons, off)
}

/// A piece of half a degree or so in a plane that the y axis lies close to, where small errors of x are large ones of y.
fn short_beside_y_axis(random: &mut Random) -> Ends {
    let off = random.power_of_ten(-16.0, -4.0);
    let off = random.signed(off);
    let lon = any_lon(random);
    let lons = [lon, lon + random.between(0.001, 0.02)];
    beside_y_axis(random, lons, off)
}

/// In a plane that holds the y axis, but for so much of the second latitude.
fn beside_y_axis(random: &mut Random, lons: [f64; 2], off: f64) -> Ends {
    let steepness = random.power_of_ten(-3.0, 4.0);
    let steepness = random.signed(steepness);
    let [[lon1, lat1], [lon2, lat2]] = lons.map(|lon| [lon, atan(steepness * cos(lon))]);
    joined([lon1, lat1], [lon2, lat2 + off])
}

/// Where y0 is 1e-14 or next to it.
pub fn at_meridian_limit(random: &mut Random) -> Ends {
    let [lon1, lat1, lat2] = random.one_of(&MERIDIAN_LIMIT).map(f64::from_bits);
    joined([lon1, lat1], [FRAC_PI_2, random.nudged(lat2)])
}

fn boundary_lon(random: &mut Random) -> f64 {
    let lon = random.one_of(&[
        -0.0,
        0.0,
        5e-324,
        1e-300,
        1e-17,
        1e-8,
        1.0,
        FRAC_PI_4,
        FRAC_PI_2,
        PI,
        3.0 * FRAC_PI_2,
        TAU,
    ]);
    let nudged = random.nudged(lon);
    if nudged < TAU {
        nudged
    } else {
        TAU - 1e-15
    }
}

fn boundary_lat(random: &mut Random) -> f64 {
    let lats = [0.0, 5e-324, 1e-300, 1e-17, 1e-8, FRAC_PI_4, 1.0, FRAC_PI_2];
    let lat = match random.below(4) {
        0 => transition_latitude(),
        _ => random.one_of(&lats),
    };
    let nudged = random.nudged(lat);
    random.signed(nudged)
}

fn boundary_point(random: &mut Random) -> Point {
    [boundary_lon(random), boundary_lat(random)]
}

pub fn boundary_values(random: &mut Random) -> Ends {
    joined(boundary_point(random), boundary_point(random))
}
