//! Polygons that grow and shrink, and lines that grow: by hand, at faults, and with each request for memory refused in turn.

use itree::{
    circle, erode, grow_lines, minkowski, minkowski_joined, CircleFault, FillRule, Join, Lines, MinkowskiFault, Point,
    Polygons, Rings,
};
use refuse::granted;

mod refuse;

const SQUARE: [Point; 4] = [
    Point { x: -1, y: -1 },
    Point { x: 1, y: -1 },
    Point { x: 1, y: 1 },
    Point { x: -1, y: 1 },
];

fn rectangle(x0: i32, y0: i32, x1: i32, y1: i32) -> [Point; 4] {
    [(x0, y0), (x1, y0), (x1, y1), (x0, y1)].map(Point::from)
}

/// A call by which polygons grow, or shrink.
type By = fn(Rings<'_>, &[Point], FillRule) -> Result<Polygons, MinkowskiFault>;

/// The rings of all polygons that have grown, each from its least point on.
fn rings_of(points: &[Point], ends: &[usize], shape: &[Point]) -> Vec<Vec<Point>> {
    rings_by(minkowski, points, ends, shape)
}

/// The rings of all polygons that such a call makes, each from its least point on.
fn rings_by(by: By, points: &[Point], ends: &[usize], shape: &[Point]) -> Vec<Vec<Point>> {
    let polygons = by(Rings { points, ends }, shape, FillRule::NonZero).unwrap();
    let from_least = |ring: &[Point]| {
        let least = (0..ring.len()).min_by_key(|place| ring[*place]).unwrap();
        [&ring[least..], &ring[..least]].concat()
    };
    polygons
        .iter()
        .flat_map(|polygon| polygon.rings())
        .map(from_least)
        .collect()
}

#[test]
fn grows_by_a_shape() {
    let field = rectangle(0, 0, 9, 9);
    assert_eq!(rings_of(&field, &[4], &SQUARE), [rectangle(-1, -1, 10, 10)]);
    let rhomb = [(2, 0), (0, 2), (-2, 0), (0, -2)].map(Point::from);
    let octagon = [(-2, 0), (0, -2), (9, -2), (11, 0), (11, 9), (9, 11), (0, 11), (-2, 9)].map(Point::from);
    assert_eq!(rings_of(&field, &[4], &rhomb), [octagon]);
    let two = [rectangle(0, 0, 2, 9), rectangle(4, 0, 6, 9)].concat();
    assert_eq!(rings_of(&two, &[4, 8], &SQUARE), [rectangle(-1, -1, 7, 10)]);
    for (side, left) in [(2, 0), (3, 1)] {
        let mut hole = rectangle(3, 3, 3 + side, 3 + side);
        hole.reverse();
        let rings = rings_of(&[field, hole].concat(), &[4, 8], &SQUARE);
        assert_eq!(rings.len(), 1 + left, "a hole of {side}");
    }
    assert!(rings_of(&[], &[], &SQUARE).is_empty());
}

/// With mitres up to 5 times the shape, as such a call takes rings.
fn mitred(rings: Rings<'_>, shape: &[Point], rule: FillRule) -> Result<Polygons, MinkowskiFault> {
    minkowski_joined(rings, shape, rule, Join::Mitre(500))
}

/// With bevels.
fn bevelled(rings: Rings<'_>, shape: &[Point], rule: FillRule) -> Result<Polygons, MinkowskiFault> {
    minkowski_joined(rings, shape, rule, Join::Bevel)
}

#[test]
fn joins_corners() {
    let field = rectangle(0, 0, 9, 9);
    let rhomb = [(2, 0), (0, 2), (-2, 0), (0, -2)].map(Point::from);
    assert_eq!(rings_by(mitred, &field, &[4], &rhomb), [rectangle(-2, -2, 11, 11)]);
    let octagon = [(3, 0), (2, 2), (0, 3), (-2, 2), (-3, 0), (-2, -2), (0, -3), (2, -2)].map(Point::from);
    let flat = [(-3, 0), (0, -3), (9, -3), (12, 0), (12, 9), (9, 12), (0, 12), (-3, 9)].map(Point::from);
    assert_eq!(rings_by(bevelled, &field, &[4], &octagon), [flat]);
    for (join, corners) in [
        (Join::Round, 8),
        (Join::Bevel, 8),
        (Join::Mitre(0), 8),
        (Join::Mitre(199), 8),
        (Join::Mitre(200), 4),
        (Join::Mitre(u32::MAX), 4),
    ] {
        let rings = Rings {
            points: &field,
            ends: &[4],
        };
        let made = minkowski_joined(rings, &rhomb, FillRule::NonZero, join).unwrap();
        assert_eq!(made.points().len(), corners, "{join:?}");
    }
    let spike = [(i32::MAX - 1003, 0), (i32::MAX - 3, 100), (i32::MAX - 1003, 200)].map(Point::from);
    let call = |join| {
        let rings = Rings {
            points: &spike,
            ends: &[3],
        };
        minkowski_joined(rings, &rhomb, FillRule::NonZero, join).map(|polygons| polygons.len())
    };
    assert_eq!(call(Join::Mitre(u32::MAX)), Err(MinkowskiFault::Range));
    assert_eq!(call(Join::Mitre(500)), Ok(1));
}

#[test]
fn shrinks_by_a_shape() {
    let field = rectangle(0, 0, 9, 9);
    let left_of = |points: &[Point], ends: &[usize], shape: &[Point]| rings_by(erode, points, ends, shape);
    assert_eq!(left_of(&field, &[4], &SQUARE), [rectangle(1, 1, 8, 8)]);
    let aside = [(-1, -1), (5, -1), (-1, 5)].map(Point::from);
    assert_eq!(left_of(&field, &[4], &aside), [rectangle(1, 1, 4, 4)]);
    assert!(left_of(&field, &[4], &rectangle(-5, -5, 5, 5)).is_empty());
    let rooms = [
        (0, 0),
        (9, 0),
        (9, 4),
        (20, 4),
        (20, 0),
        (29, 0),
        (29, 9),
        (20, 9),
        (20, 6),
        (9, 6),
        (9, 9),
        (0, 9),
    ];
    let mut apart = left_of(&rooms.map(Point::from), &[12], &SQUARE);
    apart.sort();
    assert_eq!(apart, [rectangle(1, 1, 8, 8), rectangle(21, 1, 28, 8)]);
    let mut hole = rectangle(4, 4, 5, 5);
    hole.reverse();
    let mut larger = rectangle(3, 3, 6, 6);
    larger[1..].reverse();
    let rings = left_of(&[field, hole].concat(), &[4, 8], &SQUARE);
    assert_eq!(rings, [rectangle(1, 1, 8, 8), larger]);
    assert!(left_of(&[], &[], &SQUARE).is_empty());
    let thin = rectangle(i32::MAX - 1, 0, i32::MAX, 9);
    let call = |shape: &[Point]| {
        let rings = Rings {
            points: &thin,
            ends: &[4],
        };
        erode(rings, shape, FillRule::NonZero).map(|polygons| polygons.len())
    };
    let rhomb = |size| [(size, 0), (0, size), (-size, 0), (0, -size)].map(Point::from);
    assert_eq!(call(&rhomb(2)), Err(MinkowskiFault::Range));
    assert_eq!(call(&rectangle(i32::MIN, -1, 1, 1)), Err(MinkowskiFault::Range));
    assert_eq!(call(&rhomb(1)), Ok(0));
}

/// Lines, as such a call takes rings.
fn lines_by(rings: Rings<'_>, shape: &[Point], _rule: FillRule) -> Result<Polygons, MinkowskiFault> {
    let Rings { points, ends } = rings;
    grow_lines(Lines { points, ends }, shape)
}

#[test]
fn grows_lines_by_a_shape() {
    let rings = |points: &[(i32, i32)], ends: &[usize], shape: &[Point]| {
        let points: Vec<Point> = points.iter().copied().map(Point::from).collect();
        rings_by(lines_by, &points, ends, shape)
    };
    assert_eq!(rings(&[(0, 0), (9, 0)], &[2], &SQUARE), [rectangle(-1, -1, 10, 1)]);
    assert_eq!(rings(&[(5, 5)], &[1], &SQUARE), [rectangle(4, 4, 6, 6)]);
    let bend = [(-1, -1), (10, -1), (10, 10), (8, 10), (8, 1), (-1, 1)].map(Point::from);
    assert_eq!(rings(&[(0, 0), (9, 0), (9, 9), (9, 0)], &[4], &SQUARE), [bend]);
    let slanted = [(-1, -1), (1, -1), (10, 8), (10, 10), (8, 10), (-1, 1)].map(Point::from);
    assert_eq!(rings(&[(9, 9), (0, 0)], &[2], &SQUARE), [slanted]);
    let aside = [(-1, -1), (5, -1), (-1, 5)].map(Point::from);
    let beside = [(-1, -1), (14, -1), (8, 5), (-1, 5)].map(Point::from);
    assert_eq!(rings(&[(0, 0), (9, 0)], &[2], &aside), [beside]);
    let mut hole = rectangle(1, 1, 8, 8);
    hole[1..].reverse();
    let round = [(0, 0), (9, 0), (9, 9), (0, 9), (0, 0)];
    assert_eq!(rings(&round, &[5], &SQUARE), [rectangle(-1, -1, 10, 10), hole]);
    assert_eq!(rings(&round, &[2, 4, 5], &SQUARE).len(), 2, "two sides");
    assert_eq!(
        rings(&[(0, 0), (9, 0), (0, 2), (9, 2)], &[2, 4], &SQUARE),
        [rectangle(-1, -1, 10, 3)]
    );
    assert!(rings(&[(0, 0), (9, 0)], &[0, 0], &SQUARE).is_empty());
    let call = |x| {
        let points = [(0, 0), (x, 0)].map(Point::from);
        lines_by(
            Rings {
                points: &points,
                ends: &[2],
            },
            &SQUARE,
            FillRule::NonZero,
        )
        .map(|polygons| polygons.len())
    };
    assert_eq!(call(i32::MAX), Err(MinkowskiFault::Range));
    assert_eq!(call(i32::MAX - 1), Ok(1));
}

/// Faulty shapes and rings are told by such a call.
fn tells_faults(by: By) {
    let field = rectangle(0, 0, 9, 9);
    let call =
        |points, ends, shape| by(Rings { points, ends }, shape, FillRule::EvenOdd).map(|polygons| polygons.len());
    let clockwise = [(-1, -1), (-1, 1), (1, 1), (1, -1)].map(Point::from);
    let aside = [(-1, 0), (1, 0), (0, 1)].map(Point::from);
    for shape in [&clockwise[..], &aside, &SQUARE[..2], &[]] {
        assert_eq!(call(&field, &[4], shape), Err(MinkowskiFault::Shape), "{shape:?}");
        assert_eq!(call(&field, &[5], shape), Err(MinkowskiFault::Lengths), "{shape:?}");
    }
}

#[test]
fn tells_faulty_shapes_and_rings() {
    tells_faults(minkowski);
    tells_faults(erode);
    tells_faults(mitred);
    tells_faults(bevelled);
    tells_faults(lines_by);
    let call = |points, ends, shape| {
        let made = minkowski(Rings { points, ends }, shape, FillRule::EvenOdd);
        made.map(|polygons| polygons.len())
    };
    let far = rectangle(0, 0, i32::MAX, 9);
    assert_eq!(call(&far, &[4], &SQUARE), Err(MinkowskiFault::Range));
    assert_eq!(call(&rectangle(0, 0, i32::MAX - 1, 9), &[4], &SQUARE), Ok(1));
    for (fault, text) in [
        (MinkowskiFault::Refused, "memory was refused, or the call was stopped"),
        (
            MinkowskiFault::Lengths,
            "a ring stops before it begins, or behind the points",
        ),
        (
            MinkowskiFault::Shape,
            "a shape to grow or shrink by isn't convex around the origin",
        ),
        (MinkowskiFault::Range, "what grows or shrinks leaves 32 bits"),
    ] {
        assert_eq!(fault.to_string(), text);
    }
}

#[test]
fn grows_by_a_circle() {
    let round = circle(1000, 64).unwrap();
    assert_eq!((round.corners.len(), round.corners[0]), (64, Point { x: 1000, y: 0 }));
    assert!((991..1000).contains(&round.inner));
    let square = |corner: &Point| i64::from(corner.x).pow(2) + i64::from(corner.y).pow(2);
    assert!(round.corners.iter().all(|corner| square(corner) <= 1_000_000));
    let field = rectangle(0, 0, 9, 9);
    assert_eq!(rings_of(&field, &[4], &round.corners)[0].len(), 68);
    for (radius, most) in [(0, 64), (-5, 64), (5, 3)] {
        assert_eq!(circle(radius, most).unwrap_err(), CircleFault::Few);
    }
    for (fault, text) in [
        (CircleFault::Refused, "memory was refused, or the call was stopped"),
        (CircleFault::Few, "a radius below 1, or fewer corners than 4"),
    ] {
        assert_eq!(fault.to_string(), text);
    }
    let mut requests = 0;
    while let Err(fault) = granted(requests, || circle(1000, 64)) {
        assert_eq!(fault, CircleFault::Refused);
        requests += 1;
    }
    assert!(requests > 1, "{requests} requests");
}

#[test]
fn is_refused_growth_where_memory_is() {
    let points: Vec<Point> = (0..12)
        .flat_map(|bar| {
            [
                rectangle(0, 20 * bar, 240, 20 * bar + 10),
                rectangle(20 * bar, 0, 20 * bar + 10, 240),
            ]
        })
        .flatten()
        .collect();
    let ends: Vec<usize> = (1..=24).map(|ring| 4 * ring).collect();
    let rings = Rings {
        points: &points,
        ends: &ends,
    };
    for by in [minkowski as By, erode, mitred, bevelled] {
        let call = || by(rings, &SQUARE, FillRule::NonZero);
        let mut requests = 0;
        while let Err(fault) = granted(requests, call) {
            assert_eq!(fault, MinkowskiFault::Refused);
            requests += 1;
        }
        assert!(requests > 10, "{requests} requests");
        assert_eq!(call().unwrap().polygon(0).holes().count(), 11 * 11);
    }
}

#[test]
fn is_refused_growth_of_lines_where_memory_is() {
    let points: Vec<Point> = (0..12)
        .flat_map(|bar| [(0, 20 * bar), (240, 20 * bar), (20 * bar, 0), (20 * bar, 240)].map(Point::from))
        .collect();
    let ends: Vec<usize> = (1..=24).map(|line| 2 * line).collect();
    let lines = Lines {
        points: &points,
        ends: &ends,
    };
    let call = || grow_lines(lines, &SQUARE);
    let mut requests = 0;
    while let Err(fault) = granted(requests, call) {
        assert_eq!(fault, MinkowskiFault::Refused);
        requests += 1;
    }
    assert!(requests > 10, "{requests} requests");
    assert_eq!(call().unwrap().polygon(0).holes().count(), 11 * 11);
}
