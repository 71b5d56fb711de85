//! Grids, positions, well-known binary and limits: by numbers that were reckoned by hand, at faults, and with each request
//! for memory refused in turn.

#![warn(unsafe_op_in_unsafe_fn)]

use itree::{
    limited_to, memory_peak, overlay_on, read_wkb, simplify, simplify_on, stopped_by, wkb_corners, wkb_srid, Edge,
    FillRule, Grid, GridFault, Operation, Point, Polygons, Position, PositionRings, Refused, Segment, ToRings,
    WkbFault, WkbFaultKind,
};
use refuse::granted;
use std::sync::atomic::{AtomicI32, Ordering};

mod refuse;

/// A square of a side of 1, from (0, 0) on.
const SQUARE: [(f64, f64); 4] = [(0.0, 0.0), (1.0, 0.0), (1.0, 1.0), (0.0, 1.0)];

/// The ring's points, from its least on.
fn turned(ring: &[Point]) -> Vec<(i32, i32)> {
    let least = (0..ring.len()).min_by_key(|&place| ring[place]).unwrap();
    ring.iter()
        .cycle()
        .skip(least)
        .take(ring.len())
        .map(|&point| point.into())
        .collect()
}

/// The points of the one ring that there is.
fn only_ring(polygons: &Polygons) -> Vec<(i32, i32)> {
    assert_eq!((polygons.len(), polygons.ring_offsets().len()), (1, 2));
    turned(polygons.points())
}

#[test]
fn makes_points_and_edges() {
    let (point, edge) = (
        Point { x: 3, y: -4 },
        Edge {
            x0: 1,
            y0: 2,
            x1: 3,
            y1: -4,
        },
    );
    assert_eq!((Point::from((3, -4)), Point::from([3, -4])), (point, point));
    assert_eq!((<(i32, i32)>::from(point), <[i32; 2]>::from(point)), ((3, -4), [3, -4]));
    assert_eq!([Edge::from((1, 2, 3, -4)), Edge::from([1, 2, 3, -4])], [edge; 2]);
    assert_eq!(
        [Edge::from(((1, 2), (3, -4))), Edge::from([[1, 2], [3, -4]])],
        [edge; 2]
    );
    assert_eq!(Edge::from([(1, 2).into(), point]), edge);
    assert_eq!(Segment::from((0, 9, 5)), Segment { x0: 0, x1: 9, y: 5 });
    let position = Position { x: 0.5, y: -2.0 };
    assert_eq!(
        [Position::from((0.5, -2.0)), Position::from([0.5, -2.0])],
        [position; 2]
    );
    assert_eq!(
        (<(f64, f64)>::from(position), <[f64; 2]>::from(position)),
        ((0.5, -2.0), [0.5, -2.0])
    );
}

#[test]
fn fits_grids() {
    let grid = Grid::fit(&SQUARE).unwrap();
    assert_eq!(grid.numbers(), (1 << 30, 1 << 30, -31));
    assert_eq!(grid.unit(), 2f64.powi(-31));
    assert_eq!(grid.position(Point::default()), (0.5, 0.5).into());
    let far = [[3.0, 3.0], [5.0, 5.0]];
    assert_eq!(Grid::fit(&(&SQUARE, &far)).unwrap().numbers(), (5 << 27, 5 << 27, -28));
    assert_eq!(Grid::fit(&Vec::<Position>::new()), Ok(Grid::default()));
    assert_eq!(Grid::fit(&[(0.0, 0.0), (f64::NAN, 0.0)]), Err(GridFault::Position(1)));
    assert_eq!(Grid::fit(&[(-1e308, 0.0), (1e308, 0.0)]), Err(GridFault::TooFar));
}

#[test]
fn rounds_positions() {
    let grid = Grid::new(1, 0, 0).unwrap();
    assert_eq!(grid.round((0.5, 2.5)), Ok(Point { x: -1, y: 2 }));
    assert_eq!(grid.round([1.5, -0.5]), Ok(Point { x: 1, y: 0 }));
    let positions = [(7.0, -3.0).into(), (1e300, 0.0).into()];
    assert_eq!(grid.round_all(&positions), Err(GridFault::Position(1)));
    assert_eq!(grid.round_all(&positions[..1]), Ok(vec![(6, -3).into()]));
    assert_eq!(grid.positions(&[(6, -3).into()]), Ok(positions[..1].to_vec()));
    assert_eq!(grid.round_all(&[]), Ok(vec![]));
    for (x, y, exponent) in [
        (0, 0, 971),
        (0, 0, -1023),
        ((1 << 53) - (1 << 31) + 1, 0, 0),
        (0, i64::MIN, 0),
    ] {
        assert_eq!(Grid::new(x, y, exponent), Err(GridFault::NoGrid));
    }
    assert!(Grid::new((1 << 53) - (1 << 31), 0, 970).is_ok());
}

#[test]
fn tells_faults() {
    for (fault, words) in [
        (GridFault::Refused, "memory was refused, or the call was stopped"),
        (
            GridFault::Position(3),
            "the position at place 3 isn't finite or is off the grid",
        ),
        (GridFault::TooFar, "the positions lie too far apart for a grid"),
        (GridFault::NoGrid, "there is no such grid"),
    ] {
        assert_eq!(fault.to_string(), words);
    }
    let version = itree::version();
    assert_eq!(
        version.split('.').filter(|it| it.parse::<u32>().is_ok()).count(),
        3,
        "{version}"
    );
}

#[test]
fn makes_overlays_of_positions() {
    let grid = Grid::new(0, 0, -2).unwrap();
    let half = vec![vec![[0.5, 0.0], [1.0, 0.0], [1.0, 1.0], [0.5, 1.0]]];
    let left = [(0, 0), (2, 0), (2, 4), (0, 4)];
    let rest = overlay_on(&grid, &SQUARE, &half, Operation::Difference, FillRule::NonZero).unwrap();
    assert_eq!(only_ring(&rest), left);
    let both = overlay_on(&grid, &[SQUARE, SQUARE], &half, Operation::Union, FillRule::NonZero).unwrap();
    assert_eq!(only_ring(&both), [(0, 0), (4, 0), (4, 4), (0, 4)]);
    let faulty = [(0.0, 0.0), (f64::INFINITY, 0.0)];
    let fault = overlay_on(&grid, &SQUARE, &faulty, Operation::Union, FillRule::NonZero).unwrap_err();
    assert_eq!(fault, GridFault::Position(1));
}

/// A square with a hole, both of which run as they like.
struct Frame(bool, bool);

impl ToRings for Frame {
    fn add_to(&self, rings: &mut PositionRings) -> Result<(), Refused> {
        let way = |is_turned: bool, place: usize| if is_turned { 3 - place } else { place };
        rings.push_outer((0..4).map(|place| SQUARE[way(self.0, place)]))?;
        rings.push_hole(
            (0..4)
                .map(|place| SQUARE[way(self.1, place)])
                .map(|(x, y)| (0.25 + x / 2.0, 0.25 + y / 2.0)),
        )
    }
}

#[test]
fn turns_rings_of_shapes() {
    let grid = Grid::new(0, 0, -2).unwrap();
    for frame in [
        Frame(false, false),
        Frame(false, true),
        Frame(true, false),
        Frame(true, true),
    ] {
        for rule in [FillRule::NonZero, FillRule::Positive] {
            let polygons = simplify_on(&grid, &frame, rule).unwrap();
            let polygon = polygons.polygon(0);
            assert_eq!(turned(polygon.outer()), [(0, 0), (4, 0), (4, 4), (0, 4)]);
            assert_eq!(
                turned(polygon.holes().next().unwrap()),
                [(1, 1), (1, 3), (3, 3), (3, 1)]
            );
        }
        let twice = simplify_on(&grid, &[&frame, &frame], FillRule::EvenOdd).unwrap();
        assert!(twice.is_empty());
    }
    let raw = [SQUARE.to_vec(), SQUARE.iter().rev().copied().collect()];
    assert!(simplify_on(&grid, &raw, FillRule::NonZero).unwrap().is_empty());
}

/// A polygon's bytes, little-endian: its rings end as they begin.
fn polygon_bytes(rings: &[&[(f64, f64)]]) -> Vec<u8> {
    let mut bytes = vec![1, 3, 0, 0, 0];
    bytes.extend((rings.len() as u32).to_le_bytes());
    for ring in rings {
        bytes.extend((ring.len() as u32 + 1).to_le_bytes());
        for (x, y) in ring.iter().chain(&ring[..1]) {
            bytes.extend(x.to_le_bytes().into_iter().chain(y.to_le_bytes()));
        }
    }
    bytes
}

#[test]
fn reads_and_writes_shapes() {
    let inner = [(0.25, 0.25), (0.25, 0.5), (0.5, 0.5), (0.5, 0.25)];
    let bytes = polygon_bytes(&[&SQUARE, &inner]);
    let offsets = [0, bytes.len()];
    let grid = Grid::new(0, 0, -2).unwrap();
    let shapes = read_wkb(&bytes, &offsets, &grid).unwrap();
    assert_eq!((shapes.len(), shapes.shape(0).len(), shapes.points().len()), (1, 2, 8));
    assert_eq!(
        (shapes.ring_offsets(), shapes.shape_offsets()),
        (&[0, 4, 8][..], &[0, 2][..])
    );
    assert_eq!(
        turned(shapes.shape(0).last().unwrap()),
        [(1, 1), (1, 2), (2, 2), (2, 1)]
    );
    assert_eq!(format!("{shapes:?}").matches("Point").count(), 8);
    let polygons = itree::overlay_rings(shapes.rings(), shapes.rings(), Operation::Union, FillRule::NonZero).unwrap();
    let (each, stops) = polygons.to_wkb_each(&grid, 0).unwrap();
    assert_eq!((&each, &stops[..]), (&bytes, &offsets[..]));
    let written = polygons.to_wkb(&grid, 4326).unwrap();
    assert_eq!(
        (wkb_srid(&written), wkb_srid(&each), written.len()),
        (4326, 0, 13 + each.len())
    );
    assert!(written.ends_with(&each));
    let (low, high) = wkb_corners(&written, &[0, written.len()]).unwrap().unwrap();
    assert_eq!((low, high), ((0.0, 0.0).into(), (1.0, 1.0).into()));
    assert_eq!(wkb_corners(&[], &[]), Ok(None));
    assert!(read_wkb(&[], &[], &grid).unwrap().is_empty());
}

#[test]
fn tells_faulty_shapes() {
    let mut bytes = polygon_bytes(&[&SQUARE]);
    let (count, grid) = (bytes.len(), Grid::default());
    let kind_of = |bytes: &[u8], offsets: &[usize]| match read_wkb(bytes, offsets, &grid) {
        Err(WkbFault::Faulty { kind, shape, .. }) => (kind, shape),
        other => panic!("{other:?}"),
    };
    assert_eq!(kind_of(&bytes, &[0, count - 1]), (WkbFaultKind::Short, 0));
    assert_eq!(kind_of(&bytes, &[0, count, count]), (WkbFaultKind::Short, 1));
    assert_eq!(kind_of(&bytes, &[0, count + 1]), (WkbFaultKind::Offsets, 0));
    bytes[1] = 2;
    assert_eq!(kind_of(&bytes, &[0, count]), (WkbFaultKind::Kind, 0));
    bytes[1] = 3;
    bytes.push(0);
    assert_eq!(kind_of(&bytes, &[0, count + 1]), (WkbFaultKind::LeftOver, 0));
    bytes[0] = 2;
    let fault = WkbFault::Faulty {
        kind: WkbFaultKind::ByteOrder,
        shape: 0,
        byte: 0,
    };
    assert_eq!(wkb_corners(&bytes, &[0, count]), Err(fault));
    assert_eq!(
        fault.to_string(),
        "the shape at place 0, from byte 0 on: a byte order is neither 0 nor 1"
    );
    bytes[0] = 1;
    for (coordinate, kind) in [(f64::NAN, WkbFaultKind::NotFinite), (1e10, WkbFaultKind::OffGrid)] {
        bytes[29..37].copy_from_slice(&coordinate.to_le_bytes());
        assert_eq!(kind_of(&bytes, &[0, count]), (kind, 0));
    }
    let mut nested = [1, 7, 0, 0, 0, 1, 0, 0, 0].repeat(60);
    nested.extend([1, 7, 0, 0, 0, 0, 0, 0, 0]);
    assert_eq!(kind_of(&nested, &[0, nested.len()]), (WkbFaultKind::Nested, 0));
}

#[test]
fn is_refused_shapes_where_memory_is() {
    let bytes = polygon_bytes(&[&SQUARE]);
    let call = || read_wkb(&bytes, &[0, bytes.len()], &Grid::default());
    let mut requests = 0;
    while let Err(fault) = granted(requests, call) {
        assert_eq!(fault, WkbFault::Refused);
        requests += 1;
    }
    assert!(requests > 2, "{requests} requests");
    assert_eq!(call().unwrap().points().len(), 4);
}

#[test]
fn keeps_within_limits() {
    let ring = [(0, 0), (2, 0), (2, 2), (0, 2)].map(Point::from);
    let call = || simplify(&[ring], FillRule::NonZero).map(|polygons| polygons.len());
    assert_eq!(call(), Ok(1));
    let peak = memory_peak();
    assert_eq!(limited_to(peak, call), Ok(1));
    assert_eq!(limited_to(peak - 1, call), Err(Refused));
    assert_eq!(limited_to(1, || limited_to(peak, call)), Ok(1));
    assert_eq!(
        limited_to(1, || (limited_to(peak, call), call())),
        (Ok(1), Err(Refused))
    );
    let elsewhere = || std::thread::scope(|all| all.spawn(|| (call(), memory_peak())).join().unwrap());
    assert_eq!(limited_to(1, elsewhere), (Ok(1), peak));
    assert!(std::panic::catch_unwind(|| limited_to(1, || panic!("within a limit"))).is_err());
    assert_eq!(call(), Ok(1));
}

#[test]
fn is_stopped() {
    let ring = [(0, 0), (2, 0), (2, 2), (0, 2)].map(Point::from);
    let call = || simplify(&[ring], FillRule::NonZero).map(|polygons| polygons.len());
    let (set, other) = (AtomicI32::new(1), AtomicI32::new(0));
    assert_eq!(stopped_by(&set, call), Err(Refused));
    assert_eq!(stopped_by(&set, || stopped_by(&other, call)), Ok(1));
    assert_eq!(
        stopped_by(&set, || (stopped_by(&other, call), call())),
        (Ok(1), Err(Refused))
    );
    set.store(0, Ordering::Relaxed);
    assert_eq!(stopped_by(&set, call), Ok(1));
    assert_eq!(call(), Ok(1));
}
