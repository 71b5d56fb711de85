//! Overlays within windows beside those of the plane, at faults, and with each request for memory refused in turn.

use itree::{crop, overlay_in, FillRule, Operation, Point, Polygons, Rings, TileFault, Window};
use refuse::granted;

mod refuse;

const OPERATIONS: [Operation; 4] = [
    Operation::Union,
    Operation::Intersection,
    Operation::Difference,
    Operation::Xor,
];

fn rectangle(x0: i32, y0: i32, x1: i32, y1: i32) -> [Point; 4] {
    [(x0, y0), (x1, y0), (x1, y1), (x0, y1)].map(Point::from)
}

fn window(left: i32, low: i32, right: i32, high: i32) -> Window {
    Window { left, low, right, high }
}

/// Twice the area of all polygons.
fn twice_area(polygons: &Polygons) -> i64 {
    let of_ring = |ring: &[Point]| -> i64 {
        let next = ring.iter().cycle().skip(1);
        let of_edge =
            |(from, to): (&Point, &Point)| i64::from(from.x) * i64::from(to.y) - i64::from(to.x) * i64::from(from.y);
        ring.iter().zip(next).map(of_edge).sum()
    };
    polygons.iter().flat_map(|polygon| polygon.rings()).map(of_ring).sum()
}

#[test]
fn cuts_a_field_with_a_pond() {
    let (field, pond) = (rectangle(0, 0, 9, 9), rectangle(3, 3, 6, 6));
    let (field, pond) = (
        Rings {
            points: &field,
            ends: &[4],
        },
        Rings {
            points: &pond,
            ends: &[4],
        },
    );
    for (operation, wanted) in OPERATIONS.into_iter().zip([81, 9, 72, 72]) {
        for across in 0..9 {
            let parts = [window(-1, -1, across, 10), window(across, -1, 10, 10)];
            let tiles = parts.map(|part| overlay_in(part, field, pond, operation, FillRule::NonZero).unwrap());
            assert_eq!(
                tiles.iter().map(twice_area).sum::<i64>(),
                2 * wanted,
                "{operation:?} {across}"
            );
            assert!(tiles[0].points().iter().all(|point| point.x <= across));
            assert!(tiles[1].points().iter().all(|point| across <= point.x));
        }
    }
    let far = overlay_in(window(20, 20, 30, 30), field, pond, Operation::Union, FillRule::NonZero).unwrap();
    assert!(far.is_empty());
}

#[test]
fn tells_faulty_windows_and_rings() {
    let points = rectangle(0, 0, 2, 2);
    let (square, faulty) = (
        Rings {
            points: &points,
            ends: &[4],
        },
        Rings {
            points: &points,
            ends: &[3, 2],
        },
    );
    let call = |part: Window, clip: Rings<'_>| overlay_in(part, square, clip, Operation::Union, FillRule::NonZero);
    for part in [
        window(1, 0, 1, 9),
        window(0, 9, 9, 0),
        window(i32::MIN, 0, 9, 9),
        window(0, 0, 9, i32::MAX - 1),
    ] {
        assert_eq!(call(part, square).unwrap_err(), TileFault::Window, "{part:?}");
        assert_eq!(call(part, faulty).unwrap_err(), TileFault::Lengths, "{part:?}");
    }
    let widest = window(i32::MIN + 2, i32::MIN + 2, i32::MAX - 2, i32::MAX - 2);
    assert_eq!(twice_area(&call(widest, square).unwrap()), 8);
    for (fault, text) in [
        (TileFault::Refused, "memory was refused, or the call was stopped"),
        (
            TileFault::Lengths,
            "a ring stops before it begins, or behind the points",
        ),
        (
            TileFault::Window,
            "a window has no points or comes too near to the ends of 32 bits, or two overlap",
        ),
    ] {
        assert_eq!(fault.to_string(), text);
    }
}

#[test]
fn crops_rings() {
    let points: Vec<Point> = [
        rectangle(-50, -50, 50, 50),
        rectangle(70, 70, 80, 80),
        rectangle(1, 1, 3, 2),
    ]
    .concat();
    let rings = Rings {
        points: &points,
        ends: &[4, 8, 12],
    };
    let part = window(0, 0, 4, 4);
    let cropped = crop(part, rings).unwrap();
    let wanted = [&rectangle(-2, -2, 6, 6)[..], &[], &rectangle(1, 1, 3, 2)];
    assert!(cropped.iter().eq(wanted));
    let again = Rings {
        points: cropped.points(),
        ends: &cropped.offsets()[1..],
    };
    let tile = |rings| overlay_in(part, rings, Rings::default(), Operation::Union, FillRule::EvenOdd).unwrap();
    assert_eq!(twice_area(&tile(again)), 2 * 14);
    assert_eq!(twice_area(&tile(again)), twice_area(&tile(rings)));
    assert_eq!(crop(window(4, 0, 4, 4), rings).unwrap_err(), TileFault::Window);
    let faulty = Rings {
        points: &points,
        ends: &[4, 13],
    };
    assert_eq!(crop(window(4, 0, 4, 4), faulty).unwrap_err(), TileFault::Lengths);
    let mut requests = 0;
    while let Err(fault) = granted(requests, || crop(part, rings)) {
        assert_eq!(fault, TileFault::Refused);
        requests += 1;
    }
    assert!(requests > 2, "{requests} requests");
}

#[test]
fn is_refused_tiles_where_memory_is() {
    let points: Vec<Point> = (0..12)
        .flat_map(|place| rectangle(0, 20 * place, 240, 20 * place + 10))
        .collect();
    let across: Vec<Point> = points.iter().map(|point| Point { x: point.y, y: point.x }).collect();
    let ends: Vec<usize> = (1..=12).map(|ring| 4 * ring).collect();
    let (stripes, columns) = (
        Rings {
            points: &points,
            ends: &ends,
        },
        Rings {
            points: &across,
            ends: &ends,
        },
    );
    let call = || {
        overlay_in(
            window(-1, -1, 125, 241),
            stripes,
            columns,
            Operation::Intersection,
            FillRule::NonZero,
        )
    };
    let mut requests = 0;
    while let Err(fault) = granted(requests, call) {
        assert_eq!(fault, TileFault::Refused);
        requests += 1;
    }
    assert!(requests > 4, "{requests} requests");
    assert_eq!(call().unwrap().len(), 7 * 12);
}
