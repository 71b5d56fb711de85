//! Many shapes at once: by numbers that were reckoned by hand, beside one call after the other, at faults, and with each
//! request for memory refused in turn.

#![warn(unsafe_op_in_unsafe_fn)]

use itree::{
    candidate_pairs, clip_lines, clip_lines_by_rings, clip_lines_on, overlay, overlay_each, overlay_groups, parents,
    points_in, read_wkb, simplify, Border, FillRule, Grid, GridFault, Groups, Layer, LayerBuf, LayerFault, Lines,
    Operation, Pair, Pieces, Point, Polygon, PositionRings, Refused, Rings, Side, ToRings,
};
use refuse::granted;

mod refuse;

type Ring = Vec<Point>;

const LENGTHS: &str = "a ring, a shape, a line or a group stops where it can't, or a place is that of no shape";

fn ring(corners: &[(i32, i32)]) -> Ring {
    corners.iter().map(|&corner| corner.into()).collect()
}

fn square(x: i32, y: i32, side: i32) -> Ring {
    ring(&[(x, y), (x + side, y), (x + side, y + side), (x, y + side)])
}

/// Two squares, of which the second has a hole, and a shape without rings.
fn fields() -> LayerBuf {
    let hole = ring(&[(11, 1), (11, 3), (13, 3), (13, 1)]);
    LayerBuf::new(&[vec![square(0, 0, 4)], vec![square(10, 0, 4), hole], vec![]]).unwrap()
}

/// A large square, and a shape of two small ones.
fn ponds() -> LayerBuf {
    LayerBuf::new(&[vec![square(2, 2, 10)], vec![square(3, 3, 1), square(20, 20, 1)]]).unwrap()
}

fn pairs(places: &[(usize, usize)]) -> Vec<Pair> {
    places.iter().map(|&(first, second)| Pair { first, second }).collect()
}

/// The ring's points, from its least on.
fn turned(ring: &[Point]) -> Ring {
    let least = (0..ring.len()).min_by_key(|&place| ring[place]).unwrap();
    [&ring[least..], &ring[..least]].concat()
}

fn rings_of(polygons: impl Iterator<Item = impl AsPolygon>) -> Vec<Vec<Ring>> {
    let mut all: Vec<Vec<Ring>> = polygons.map(|polygon| polygon.turned_rings()).collect();
    all.sort();
    all
}

/// What has rings, whether by itself or by a reference.
trait AsPolygon {
    fn turned_rings(&self) -> Vec<Ring>;
}

impl AsPolygon for Polygon<'_> {
    fn turned_rings(&self) -> Vec<Ring> {
        self.rings().map(turned).collect()
    }
}

fn lines_of(pieces: &Pieces) -> Vec<Vec<Ring>> {
    (0..pieces.len())
        .map(|line| pieces.line(line).map(<[Point]>::to_vec).collect())
        .collect()
}

#[test]
fn tells_candidate_pairs() {
    let sorted = |shapes: Layer<'_>, others: Layer<'_>| {
        let mut found = candidate_pairs(shapes, others).unwrap().to_vec();
        found.sort();
        found
    };
    let (fields, ponds) = (fields(), ponds());
    assert_eq!(
        sorted((&fields).into(), (&ponds).into()),
        pairs(&[(0, 0), (0, 1), (1, 0), (1, 1)])
    );
    assert_eq!(sorted((&fields).into(), (&fields).into()), pairs(&[(0, 0), (1, 1)]));
    assert!(sorted(Layer::default(), (&fields).into()).is_empty());
    let polygons = simplify(&[square(0, 0, 2), square(5, 5, 2)], FillRule::NonZero).unwrap();
    assert_eq!(sorted((&polygons).into(), (&fields).into()).len(), 1);
}

#[test]
fn makes_an_overlay_of_each_pair() {
    let (fields, ponds) = (fields(), ponds());
    let asked = pairs(&[(0, 0), (1, 1), (0, 1), (2, 0)]);
    let both = overlay_each(&fields, &ponds, &asked, Operation::Intersection, FillRule::NonZero).unwrap();
    let wanted = [vec![vec![square(2, 2, 2)]], vec![], vec![vec![square(3, 3, 1)]], vec![]];
    assert_eq!(both.iter().map(rings_of).collect::<Vec<_>>(), wanted);
    assert_eq!(
        (both.len(), both.is_empty(), both.ends(), both.all().len()),
        (4, false, &[1, 1, 2, 2][..], 2)
    );
    assert_eq!((both.polygons(2).len(), (&both).into_iter().len()), (1, 4));
    let rest = overlay_each(
        &fields,
        &ponds,
        &pairs(&[(1, 0)]),
        Operation::Difference,
        FillRule::EvenOdd,
    )
    .unwrap();
    assert_eq!(rest.polygons(0).next().unwrap().outer().len(), 10);
    let again = overlay_each(both.all(), &ponds, &pairs(&[(1, 1)]), Operation::Xor, FillRule::NonZero).unwrap();
    assert_eq!(rings_of(again.polygons(0)), [[square(20, 20, 1)]]);
    let none = overlay_each(&fields, &ponds, &[], Operation::Union, FillRule::NonZero).unwrap();
    assert!(none.is_empty() && none.all().is_empty() && none.iter().next().is_none());
    let taken = std::thread::spawn(move || both.all().points().len());
    assert_eq!(taken.join().unwrap(), 8);
}

#[test]
#[should_panic]
fn has_no_overlay_behind_the_last() {
    let none = overlay_each(&fields(), &ponds(), &[], Operation::Union, FillRule::NonZero).unwrap();
    none.polygons(0);
}

#[test]
fn makes_unions_of_groups() {
    let cells = [square(0, 0, 2), square(2, 0, 2), square(9, 9, 1), square(0, 2, 2)].map(|ring| [ring]);
    let cells = LayerBuf::new(&cells).unwrap();
    let groups = Groups {
        places: &[0, 1, 2, 0, 3],
        ends: &[2, 3, 3, 5],
    };
    let none = Groups {
        places: &[],
        ends: &[0; 4],
    };
    let unions = overlay_groups(
        &cells,
        groups,
        Layer::default(),
        none,
        Operation::Union,
        FillRule::NonZero,
    )
    .unwrap();
    let (across, up) = (
        ring(&[(0, 0), (4, 0), (4, 2), (0, 2)]),
        ring(&[(0, 0), (2, 0), (2, 4), (0, 4)]),
    );
    let wanted = [vec![vec![across]], vec![vec![square(9, 9, 1)]], vec![], vec![vec![up]]];
    assert_eq!(unions.iter().map(rings_of).collect::<Vec<_>>(), wanted);
}

#[test]
fn tells_which_points_are_in_shapes() {
    let points = ring(&[(1, 1), (4, 4), (12, 2), (10, 0), (30, 30)]);
    for (border, wanted) in [
        (Border::Closed, &[(0, 0), (1, 0), (3, 1)][..]),
        (Border::Open, &[(0, 0)]),
        (Border::HalfOpen, &[(0, 0), (3, 1)]),
    ] {
        let found = points_in(&points, &fields(), FillRule::NonZero, border).unwrap();
        assert_eq!(found[..], pairs(wanted), "{border:?}");
    }
    assert!(points_in(&[], &fields(), FillRule::NonZero, Border::Closed)
        .unwrap()
        .is_empty());
}

#[test]
fn clips_lines() {
    let roads = [
        ring(&[(-2, 3), (6, 3)]),
        ring(&[(5, 5), (8, 8)]),
        ring(&[(1, -3), (1, 2), (2, 2), (2, -9)]),
        vec![],
    ];
    let field = [square(0, 0, 4)];
    let inside = clip_lines(&roads, &field, Side::Inside, FillRule::NonZero).unwrap();
    let bend = ring(&[(1, 0), (1, 2), (2, 2), (2, 0)]);
    assert_eq!(
        lines_of(&inside),
        [vec![ring(&[(0, 3), (4, 3)])], vec![], vec![bend], vec![]]
    );
    assert_eq!(
        (inside.points().len(), inside.piece_offsets(), inside.line_offsets()),
        (6, &[0, 2, 6][..], &[0, 1, 1, 2, 2][..])
    );
    assert_eq!(format!("{inside:?}").matches("Point").count(), 6);
    let outside = clip_lines(&roads, &field, Side::Outside, FillRule::NonZero).unwrap();
    let wanted = [
        vec![ring(&[(-2, 3), (0, 3)]), ring(&[(4, 3), (6, 3)])],
        vec![roads[1].clone()],
        vec![ring(&[(1, -3), (1, 0)]), ring(&[(2, 0), (2, -9)])],
        vec![],
    ];
    assert_eq!(lines_of(&outside), wanted);
    let polygons = simplify(&field, FillRule::NonZero).unwrap();
    let lines = Lines {
        points: &roads[0],
        ends: &[2],
    };
    let along = clip_lines_by_rings(lines, polygons.rings(), Side::Inside, FillRule::NonZero).unwrap();
    assert_eq!(lines_of(&along), [[ring(&[(0, 3), (4, 3)])]]);
    let none = clip_lines(&[[]; 0], &field, Side::Inside, FillRule::NonZero).unwrap();
    assert!(none.is_empty() && none.points().is_empty());
}

#[test]
fn tells_parents() {
    let rings = [
        square(0, 0, 20),
        square(2, 2, 10),
        square(4, 4, 6),
        square(5, 5, 3),
        square(6, 6, 1),
        square(30, 0, 5),
    ];
    let polygons = simplify(&rings, FillRule::EvenOdd).unwrap();
    let place_of = |x, y| {
        let has_it = |polygon: Polygon<'_>| polygon.outer().contains(&Point { x, y });
        polygons.iter().position(has_it).unwrap()
    };
    let found = polygons.parents().unwrap();
    assert_eq!(found.len(), 4);
    for (corner, around) in [
        ((0, 0), None),
        ((30, 0), None),
        ((4, 4), Some((0, 0))),
        ((6, 6), Some((4, 4))),
    ] {
        let wanted = around.map(|(x, y)| place_of(x, y));
        assert_eq!(found[place_of(corner.0, corner.1)], wanted, "{corner:?}");
    }
    assert_eq!(parents(&polygons), Ok(found));
    assert_eq!(parents(Layer::default()), Ok(vec![]));
}

/// A square with a hole, both of which run clockwise.
struct Frame;

impl ToRings for Frame {
    fn add_to(&self, rings: &mut PositionRings) -> Result<(), Refused> {
        rings.push_outer([(0.0, 0.0), (0.0, 1.0), (1.0, 1.0), (1.0, 0.0)])?;
        rings.push_hole([(0.25, 0.25), (0.25, 0.5), (0.5, 0.5), (0.5, 0.25)])
    }
}

#[test]
fn takes_positions() {
    let grid = Grid::new(0, 0, -2).unwrap();
    let frames = LayerBuf::on(&grid, &[Frame, Frame]).unwrap();
    let half = [[(0.5, 0.0), (1.5, 0.0), (1.5, 1.0), (0.5, 1.0)]];
    let other = LayerBuf::on(&grid, &half).unwrap();
    let asked = candidate_pairs(&frames, &other).unwrap();
    let both = overlay_each(&frames, &other, &asked, Operation::Intersection, FillRule::NonZero).unwrap();
    for polygons in &both {
        assert_eq!(rings_of(polygons), [[ring(&[(2, 0), (4, 0), (4, 4), (2, 4)])]]);
    }
    assert_eq!((both.len(), frames.len(), frames.is_empty()), (2, 2, false));
    let in_hole = [grid.round((0.375, 0.375)).unwrap(), grid.round((0.75, 0.75)).unwrap()];
    let found = points_in(&in_hole, &frames, FillRule::NonZero, Border::Open).unwrap();
    assert_eq!(found[..], pairs(&[(1, 0), (1, 1)]));
    let road = [(-1.0, 0.375), (2.0, 0.375)];
    let pieces = clip_lines_on(&grid, &road, &half, Side::Inside, FillRule::NonZero).unwrap();
    assert_eq!(lines_of(&pieces), [[ring(&[(2, 2), (6, 2)])]]);
    let faulty = [(0.0, 0.0), (f64::INFINITY, 0.0)];
    assert_eq!(LayerBuf::on(&grid, &[faulty]), Err(GridFault::Position(1)));
    let fault = clip_lines_on(&grid, &faulty, &half, Side::Inside, FillRule::NonZero).unwrap_err();
    assert_eq!(fault, GridFault::Position(1));
}

#[test]
fn takes_shapes_that_were_read() {
    let mut bytes = vec![1, 3, 0, 0, 0, 1, 0, 0, 0, 4, 0, 0, 0];
    for number in [0.0, 0.0, 4.0, 0.0, 4.0, 4.0, 0.0, 0.0_f64] {
        bytes.extend(number.to_le_bytes());
    }
    let shapes = read_wkb(&bytes, &[0, bytes.len()], &Grid::default()).unwrap();
    assert_eq!(candidate_pairs(&shapes, &fields()).unwrap()[..], pairs(&[(0, 0)]));
}

#[test]
fn tells_faulty_shapes() {
    let points = ring(&[(0, 0), (2, 0), (2, 2)]);
    let layer = |ring_ends, shape_ends| Layer {
        points: &points,
        ring_ends,
        shape_ends,
    };
    let good = layer(&[3], &[1]);
    let (union, rule) = (Operation::Union, FillRule::NonZero);
    for faulty in [layer(&[3, 2], &[1]), layer(&[4], &[1]), layer(&[3], &[2])] {
        for (one, other) in [(faulty, good), (good, faulty)] {
            let fault = overlay_each(one, other, &pairs(&[(0, 0)]), union, rule).unwrap_err();
            assert_eq!(fault, LayerFault::Lengths);
            assert_eq!(candidate_pairs(one, other).unwrap_err(), LayerFault::Lengths);
        }
        let fault = points_in(&points, faulty, rule, Border::Closed).unwrap_err();
        assert_eq!(
            (fault, parents(faulty)),
            (LayerFault::Lengths, Err(LayerFault::Lengths))
        );
    }
    for pair in [(1, 0), (0, 1), (usize::MAX, 0)] {
        let fault = overlay_each(good, good, &pairs(&[pair]), union, rule).unwrap_err();
        assert_eq!(fault, LayerFault::Lengths);
    }
    let (one, none) = (
        Groups {
            places: &[0],
            ends: &[1],
        },
        Groups::default(),
    );
    let fault = overlay_groups(good, one, good, none, union, rule).unwrap_err();
    assert_eq!((fault, fault.to_string()), (LayerFault::Lengths, LENGTHS.to_string()));
    let lines = Lines {
        points: &points,
        ends: &[4],
    };
    let fault = clip_lines_by_rings(lines, Rings::default(), Side::Inside, rule).unwrap_err();
    assert_eq!(fault, LayerFault::Lengths);
    let refused = LayerFault::from(Refused);
    assert_eq!(refused.to_string(), "memory was refused, or the call was stopped");
}

/// Calls with each request refused in turn, until one has what it needs: how many there are.
fn requests_of<T, F: std::fmt::Debug>(call: impl Fn() -> Result<T, F>, is_refused: impl Fn(&F) -> bool) -> usize {
    let mut requests = 0;
    while let Err(fault) = granted(requests, &call) {
        assert!(is_refused(&fault), "{fault:?}");
        requests += 1;
    }
    requests
}

#[test]
fn is_refused_where_memory_is() {
    let (fields, ponds) = (fields(), ponds());
    let is_refused = |fault: &LayerFault| *fault == LayerFault::Refused;
    let (asked, points) = (pairs(&[(0, 0), (1, 0)]), ring(&[(1, 1), (3, 3)]));
    let (xor, rule) = (Operation::Xor, FillRule::NonZero);
    let (road, field) = ([ring(&[(-2, 1), (6, 1)])], [square(0, 0, 4)]);
    for requests in [
        requests_of(|| overlay_each(&fields, &ponds, &asked, xor, rule), is_refused),
        requests_of(|| candidate_pairs(&fields, &ponds), is_refused),
        requests_of(|| points_in(&points, &fields, rule, Border::Closed), is_refused),
        requests_of(|| clip_lines(&road, &field, Side::Inside, rule), |_: &Refused| true),
        requests_of(|| parents(&fields), is_refused),
    ] {
        assert!(requests > 0, "{requests} requests");
    }
}

/// Numbers without visible order.
struct Numbers(u64);

impl Numbers {
    fn below(&mut self, limit: i32) -> i32 {
        self.0 = self
            .0
            .wrapping_mul(6364136223846793005)
            .wrapping_add(1442695040888963407);
        ((self.0 >> 33) as i32 & i32::MAX) % limit
    }

    /// Some shapes of rings by chance, which cross themselves.
    fn shapes(&mut self) -> Vec<Vec<Ring>> {
        let mut many = |most| 0..self.below(most);
        let counts: Vec<i32> = many(5).map(|_| 0).collect();
        counts.iter().map(|_| self.rings()).collect()
    }

    fn rings(&mut self) -> Vec<Ring> {
        let count = self.below(4);
        (0..count)
            .map(|_| (0..5).map(|_| (self.below(9), self.below(9)).into()).collect())
            .collect()
    }
}

#[test]
fn makes_overlays_as_one_by_one() {
    let mut numbers = Numbers(43);
    let operations = [
        Operation::Union,
        Operation::Intersection,
        Operation::Difference,
        Operation::Xor,
    ];
    let rules = [
        FillRule::EvenOdd,
        FillRule::NonZero,
        FillRule::Positive,
        FillRule::Negative,
    ];
    for round in 0..300 {
        let (shapes, others) = (numbers.shapes(), numbers.shapes());
        let (operation, rule) = (operations[round % 4], rules[round / 4 % 4]);
        let all: Vec<(usize, usize)> = (0..shapes.len())
            .flat_map(|one| (0..others.len()).map(move |other| (one, other)))
            .collect();
        let (layer, clips) = (LayerBuf::new(&shapes).unwrap(), LayerBuf::new(&others).unwrap());
        let overlays = overlay_each(&layer, &clips, &pairs(&all), operation, rule).unwrap();
        for (polygons, &(one, other)) in overlays.iter().zip(&all) {
            let alone = overlay(&shapes[one], &others[other], operation, rule).unwrap();
            assert_eq!(rings_of(polygons), rings_of(alone.iter()), "{shapes:?} {others:?}");
        }
    }
}
