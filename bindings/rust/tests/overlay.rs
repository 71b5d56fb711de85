//! Overlays beside a plain model, at faults, and with each request for memory refused in turn.

#![warn(unsafe_op_in_unsafe_fn)]

use itree::{overlay, overlay_rings, simplify, FillRule, Operation, OverlayFault, Point, Polygons, Refused, Rings};
use refuse::granted;

mod refuse;

const OPERATIONS: [Operation; 4] = [
    Operation::Union,
    Operation::Intersection,
    Operation::Difference,
    Operation::Xor,
];

const RULES: [FillRule; 4] = [
    FillRule::EvenOdd,
    FillRule::NonZero,
    FillRule::Positive,
    FillRule::Negative,
];

type Ring = Vec<Point>;

fn ring(corners: &[(i32, i32)]) -> Ring {
    corners.iter().map(|&(x, y)| Point { x, y }).collect()
}

/// From the lower left corner on, counterclockwise where the numbers rise.
fn rectangle(x0: i32, y0: i32, x1: i32, y1: i32) -> Ring {
    ring(&[(x0, y0), (x1, y0), (x1, y1), (x0, y1)])
}

/// The rings of each polygon, each from its least point on, and the polygons in order.
fn in_order(polygons: &Polygons) -> Vec<Vec<Ring>> {
    let turned = |ring: &[Point]| {
        let least = (0..ring.len()).min_by_key(|&place| ring[place]).unwrap();
        [&ring[least..], &ring[..least]].concat()
    };
    let mut all: Vec<Vec<Ring>> = polygons
        .iter()
        .map(|polygon| polygon.rings().map(turned).collect())
        .collect();
    all.sort();
    all
}

#[test]
fn makes_polygons_of_two_squares() {
    let (low, high) = (rectangle(0, 0, 2, 2), rectangle(1, 1, 3, 3));
    let left = ring(&[(0, 0), (2, 0), (2, 1), (1, 1), (1, 2), (0, 2)]);
    let right = ring(&[(1, 2), (2, 2), (2, 1), (3, 1), (3, 3), (1, 3)]);
    let both = ring(&[(0, 0), (2, 0), (2, 1), (3, 1), (3, 3), (1, 3), (1, 2), (0, 2)]);
    for (operation, wanted) in [
        (Operation::Union, vec![vec![both]]),
        (Operation::Intersection, vec![vec![rectangle(1, 1, 2, 2)]]),
        (Operation::Difference, vec![vec![left.clone()]]),
        (Operation::Xor, vec![vec![left], vec![right]]),
    ] {
        let polygons = overlay(&[&low], &[&high], operation, FillRule::NonZero).unwrap();
        assert_eq!(in_order(&polygons), wanted, "{operation:?}");
    }
}

#[test]
fn has_holes() {
    let (field, pond, next) = (rectangle(0, 0, 9, 9), rectangle(3, 3, 6, 6), rectangle(9, 9, 12, 12));
    let polygons = overlay(&[&field], &[&pond], Operation::Difference, FillRule::NonZero).unwrap();
    let hole = ring(&[(3, 3), (3, 6), (6, 6), (6, 3)]);
    assert_eq!(in_order(&polygons), [[field.clone(), hole]]);
    assert_eq!((polygons.len(), polygons.points().len()), (1, 8));
    assert_eq!(
        (polygons.ring_offsets(), polygons.polygon_offsets()),
        (&[0, 4, 8][..], &[0, 2][..])
    );
    let polygon = polygons.polygon(0);
    assert_eq!((polygon.outer(), polygon.holes().len()), (&polygons.points()[..4], 1));
    assert!(polygon.holes().eq([&polygons.points()[4..]]));
    let clip = Rings {
        points: &pond,
        ends: &[4],
    };
    let filled = overlay_rings(polygons.rings(), clip, Operation::Union, FillRule::Positive).unwrap();
    assert_eq!(in_order(&filled), [[field.clone()]]);
    let taken = std::thread::spawn(move || (&filled).into_iter().rev().len());
    assert_eq!(taken.join().unwrap(), 1);
    let corners = overlay(&[&field], &[&next], Operation::Union, FillRule::NonZero).unwrap();
    assert_eq!(in_order(&corners), [[field], [next]]);
}

#[test]
fn has_the_inside_by_each_rule() {
    let (square, clockwise) = (rectangle(0, 0, 2, 2), rectangle(2, 0, 0, 2));
    let twice = [&square, &square];
    for (rings, wanted) in [(&[&clockwise][..], [1, 1, 0, 1]), (&twice, [0, 1, 1, 0])] {
        for (rule, count) in RULES.into_iter().zip(wanted) {
            let polygons = simplify(rings, rule).unwrap();
            assert_eq!(in_order(&polygons), vec![[square.clone()]; count], "{rings:?} {rule:?}");
        }
    }
    let bow_tie = simplify(&[ring(&[(0, 0), (3, 1), (3, 0), (0, 1)])], FillRule::EvenOdd).unwrap();
    let (left, right) = (ring(&[(0, 0), (2, 1), (0, 1)]), ring(&[(2, 1), (3, 0), (3, 1)]));
    assert_eq!(in_order(&bow_tie), [[left], [right]]);
    assert_eq!(format!("{bow_tie:?}").matches("Point").count(), 6);
}

#[test]
fn makes_nothing_of_nothing() {
    for operation in OPERATIONS {
        let polygons = overlay_rings(Rings::default(), Rings::default(), operation, FillRule::NonZero).unwrap();
        assert!(polygons.is_empty() && polygons.points().is_empty() && polygons.iter().next().is_none());
        assert_eq!(
            (polygons.ring_offsets(), polygons.polygon_offsets()),
            (&[0][..], &[0][..])
        );
        assert_eq!(polygons.rings(), Rings::default());
    }
}

#[test]
#[should_panic(expected = "there are 1 polygons, and none at 1")]
fn has_no_polygon_behind_the_last() {
    let polygons = simplify(&[rectangle(0, 0, 2, 2)], FillRule::NonZero).unwrap();
    polygons.polygon(1);
}

#[test]
fn tells_faulty_rings() {
    let points = rectangle(0, 0, 2, 2);
    for ends in [&[3, 2][..], &[2, 5]] {
        let faulty = Rings { points: &points, ends };
        for (subject, clip) in [(faulty, Rings::default()), (Rings::default(), faulty)] {
            let fault = overlay_rings(subject, clip, Operation::Union, FillRule::NonZero).unwrap_err();
            assert_eq!(fault, OverlayFault::Lengths);
            assert_eq!(fault.to_string(), "a ring stops before it begins, or behind the points");
        }
    }
}

#[test]
fn is_refused_polygons_where_memory_is() {
    let stripe = |place: i32| rectangle(0, 20 * place, 240, 20 * place + 10);
    let column = |place: i32| rectangle(20 * place, 0, 20 * place + 10, 240);
    let (stripes, columns): (Vec<Ring>, Vec<Ring>) = ((0..12).map(stripe).collect(), (0..12).map(column).collect());
    let call = || overlay(&stripes, &columns, Operation::Intersection, FillRule::NonZero);
    let mut requests = 0;
    while let Err(Refused) = granted(requests, call) {
        requests += 1;
    }
    assert!(requests > 8, "{requests} requests");
    assert_eq!(call().unwrap().len(), 144);
}

/// Numbers without visible order.
struct Random(u64);

impl Random {
    fn below(&mut self, limit: u64) -> i32 {
        self.0 = self
            .0
            .wrapping_mul(6364136223846793005)
            .wrapping_add(1442695040888963407);
        ((self.0 >> 33) % limit) as i32
    }

    /// Rectangles, which go either way.
    fn rectangles(&mut self) -> Vec<Ring> {
        let count = self.below(5);
        (0..count)
            .map(|_| rectangle(self.below(8), self.below(8), self.below(8), self.below(8)))
            .collect()
    }
}

/// How often the ring, whose edges run along the axes, goes round the middle of the unit square whose lower left corner is
/// (x, y).
fn plain_winding<'a>(rings: impl IntoIterator<Item = &'a [Point]>, (x, y): (i32, i32)) -> i32 {
    let of_edge = |from: &Point, to: &Point| {
        let goes_up = from.y <= y && y < to.y;
        let goes_down = to.y <= y && y < from.y;
        (x < from.x) as i32 * (goes_up as i32 - goes_down as i32)
    };
    let of_ring = |ring: &[Point]| -> i32 {
        let next = ring.iter().cycle().skip(1);
        ring.iter().zip(next).map(|(from, to)| of_edge(from, to)).sum()
    };
    rings.into_iter().map(of_ring).sum()
}

fn is_inside(rule: FillRule, winding: i32) -> bool {
    match rule {
        FillRule::EvenOdd => winding % 2 != 0,
        FillRule::NonZero => winding != 0,
        FillRule::Positive => winding > 0,
        FillRule::Negative => winding < 0,
    }
}

fn operate(operation: Operation, subject: bool, clip: bool) -> bool {
    match operation {
        Operation::Union => subject || clip,
        Operation::Intersection => subject && clip,
        Operation::Difference => subject && !clip,
        Operation::Xor => subject != clip,
    }
}

#[test]
fn makes_overlays_as_the_plain_model() {
    let mut random = Random(37);
    for round in 0..2000 {
        let (subject, clip) = (random.rectangles(), random.rectangles());
        let (operation, rule) = (OPERATIONS[round % 4], RULES[round / 4 % 4]);
        let polygons = overlay(&subject, &clip, operation, rule).unwrap();
        for square in (-1..8).flat_map(|x| (-1..8).map(move |y| (x, y))) {
            let inside = |rings: &[Ring]| is_inside(rule, plain_winding(rings.iter().map(|it| &it[..]), square));
            let wanted = operate(operation, inside(&subject), inside(&clip));
            let told = plain_winding(polygons.iter().flat_map(|polygon| polygon.rings()), square);
            assert_eq!(
                told, wanted as i32,
                "{subject:?} {clip:?} {operation:?} {rule:?} {square:?}"
            );
        }
    }
}
