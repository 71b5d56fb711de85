//! Tiles joined, and overlays by threads, beside those of one call.

use itree::{
    join, limited_to, overlay_in, overlay_rings, overlay_threads, whole_window, FillRule, Layer, Operation, Point,
    Polygons, Rings, Tile, TileFault, Window,
};
use refuse::granted;

mod refuse;

fn rectangle(x0: i32, y0: i32, x1: i32, y1: i32) -> [Point; 4] {
    [(x0, y0), (x1, y0), (x1, y1), (x0, y1)].map(Point::from)
}

fn window(left: i32, low: i32, right: i32, high: i32) -> Window {
    Window { left, low, right, high }
}

/// The rings of each polygon, each from its least point on, all in order.
fn in_order(polygons: &Polygons) -> Vec<Vec<Vec<Point>>> {
    let turned = |ring: &[Point]| {
        let least = (0..ring.len()).min_by_key(|&place| ring[place]).unwrap();
        [&ring[least..], &ring[..least]].concat()
    };
    let mut all: Vec<Vec<_>> = polygons
        .iter()
        .map(|polygon| polygon.rings().map(turned).collect())
        .collect();
    for rings in &mut all {
        rings[1..].sort();
    }
    all.sort();
    all
}

#[test]
fn joins_a_field_with_its_pond() {
    let (field, pond) = (rectangle(0, 0, 9, 9), rectangle(3, 3, 6, 6));
    let (field, pond) = (
        Rings {
            points: &field,
            ends: &[4],
        },
        Rings {
            points: &pond,
            ends: &[4],
        },
    );
    let whole = overlay_rings(field, pond, Operation::Difference, FillRule::NonZero).unwrap();
    for across in 0..9 {
        let parts = [window(-1, -1, across, 10), window(across, -1, 10, 10)];
        let made = parts.map(|part| overlay_in(part, field, pond, Operation::Difference, FillRule::NonZero).unwrap());
        let tile = |place: usize| Tile {
            window: parts[place],
            polygons: (&made[place]).into(),
        };
        let joined = join(&[tile(1), tile(0)]).unwrap();
        assert_eq!(in_order(&joined), in_order(&whole), "{across}");
        let again = Tile {
            window: window(-1, -1, 10, 10),
            polygons: (&joined).into(),
        };
        assert_eq!(in_order(&join(&[again]).unwrap()), in_order(&whole), "{across}");
        let mut requests = 0;
        while let Err(fault) = granted(requests, || join(&[tile(0), tile(1)])) {
            assert_eq!(fault, TileFault::Refused);
            requests += 1;
        }
        assert!(requests > 4, "{requests} requests");
    }
    assert!(join(&[]).unwrap().is_empty());
}

#[test]
fn tells_what_windows_make_up() {
    let (left, right) = (window(0, 0, 5, 9), window(5, 0, 9, 9));
    assert_eq!(whole_window(&[right, left]), Ok(Some(window(0, 0, 9, 9))));
    for gap in [&[left, window(6, 0, 9, 9)][..], &[left, window(5, 0, 9, 8)], &[]] {
        assert_eq!(whole_window(gap), Ok(None));
    }
    for faulty in [[left, left], [left, window(5, 0, 5, 9)]] {
        assert_eq!(whole_window(&faulty), Err(TileFault::Window));
    }
}

#[test]
fn tells_faulty_tiles() {
    let points = rectangle(0, 0, 5, 5);
    let layer = |ring_ends: &'static [usize], shape_ends: &'static [usize]| Layer {
        points: &points,
        ring_ends,
        shape_ends,
    };
    let square = layer(&[4], &[1]);
    let tile = |window, polygons| Tile { window, polygons };
    let left = tile(window(0, 0, 5, 5), square);
    let next = tile(window(5, 0, 9, 5), Layer::default());
    assert_eq!(join(&[left, next]).unwrap().len(), 1);
    let spare = tile(window(0, 0, 5, 5), layer(&[4, 4], &[1]));
    assert_eq!(join(&[spare, next]).unwrap().len(), 1);
    for (tiles, fault) in [
        ([left, left], TileFault::Window),
        ([left, tile(window(9, 0, 9, 5), Layer::default())], TileFault::Window),
        ([tile(window(0, 0, 4, 5), square), next], TileFault::Unfit),
        ([tile(window(0, 0, 5, 5), layer(&[5], &[1])), next], TileFault::Lengths),
        ([tile(window(0, 0, 5, 5), layer(&[4], &[2])), next], TileFault::Lengths),
        (
            [tile(window(0, 0, 5, 5), layer(&[4, 3], &[2])), next],
            TileFault::Lengths,
        ),
    ] {
        assert_eq!(join(&tiles).unwrap_err(), fault, "{tiles:?}");
    }
    assert_eq!(
        TileFault::Unfit.to_string(),
        "tiles don't fit: a polygon leaves its window, or polygons at borders overlap"
    );
}

/// Rectangles by chance.
fn rectangles(seed: u64, count: usize) -> (Vec<Point>, Vec<usize>) {
    let mut state = seed;
    let mut below = |limit: u64| {
        state = state
            .wrapping_mul(6364136223846793005)
            .wrapping_add(1442695040888963407);
        ((state >> 33) % limit) as i32
    };
    let mut points = Vec::new();
    for _ in 0..count {
        let (x, y) = (below(4000), below(4000));
        points.extend(rectangle(x, y, x + 1 + below(20), y + 1 + below(20)));
    }
    (points, (1..=count).map(|ring| 4 * ring).collect())
}

#[test]
fn answers_by_threads_as_by_one_call() {
    let ((points, ends), (others, other_ends)) = (rectangles(47, 40_000), rectangles(57, 5_000));
    let (subject, clip) = (
        Rings {
            points: &points,
            ends: &ends,
        },
        Rings {
            points: &others,
            ends: &other_ends,
        },
    );
    for operation in [Operation::Difference, Operation::Xor] {
        let call = |threads| overlay_threads(subject, clip, operation, FillRule::EvenOdd, threads).unwrap();
        let (one, four) = (call(1), call(4));
        assert!(one.points() == four.points() && one.ring_offsets() == four.ring_offsets());
        let whole = overlay_rings(subject, clip, operation, FillRule::EvenOdd).unwrap();
        assert!(in_order(&one) == in_order(&whole), "{operation:?}");
    }
    let call = || overlay_threads(subject, clip, Operation::Xor, FillRule::EvenOdd, 2);
    assert_eq!(limited_to(1000, call).unwrap_err(), TileFault::Refused);
}

#[test]
fn answers_what_no_window_reaches() {
    let (mut points, mut ends) = rectangles(67, 31_000);
    points.extend([(i32::MIN, 0), (i32::MAX, 0), (0, i32::MAX)].map(Point::from));
    ends.push(points.len());
    let far = Rings {
        points: &points,
        ends: &ends,
    };
    let polygons = overlay_threads(far, Rings::default(), Operation::Union, FillRule::NonZero, 2).unwrap();
    assert!(polygons.points().contains(&Point { x: i32::MIN, y: 0 }));
    let none = overlay_threads(
        Rings::default(),
        Rings::default(),
        Operation::Union,
        FillRule::NonZero,
        0,
    )
    .unwrap();
    assert!(none.is_empty());
    let faulty = Rings {
        points: &points,
        ends: &[3, 2],
    };
    let fault = overlay_threads(faulty, far, Operation::Union, FillRule::NonZero, 2).unwrap_err();
    assert_eq!(fault, TileFault::Lengths);
}
