//! The calls beside a plain model, at faults, and with each request for memory refused in turn.

#![warn(unsafe_op_in_unsafe_fn)]

use itree::{
    below, first_meeting, how_they_meet, locate, meetings, meetings_all, meetings_between, node, snap, Chains, Edge,
    Fault, LocateFault, Meeting, Point, Refused, Segment,
};
use refuse::granted;
use std::collections::{BTreeSet, HashMap};

mod refuse;

/// Numbers without visible order.
struct Random(u64);

impl Random {
    fn below(&mut self, limit: u64) -> i32 {
        self.0 = self
            .0
            .wrapping_mul(6364136223846793005)
            .wrapping_add(1442695040888963407);
        ((self.0 >> 33) % limit) as i32
    }

    fn segments(&mut self, count: usize) -> Vec<Segment> {
        let segment = |_| {
            let x0 = self.below(40) - 20;
            Segment {
                x0,
                x1: x0 + self.below(12) - 2,
                y: self.below(8) - 4,
            }
        };
        (0..count).map(segment).collect()
    }

    fn points(&mut self, count: usize) -> Vec<Point> {
        (0..count)
            .map(|_| Point {
                x: self.below(60) - 30,
                y: self.below(12) - 6,
            })
            .collect()
    }
}

fn side_of(edge: &Edge, x: i32, y: i32) -> i64 {
    let Edge { x0, y0, x1, y1 } = *edge;
    ((x1 - x0) as i64 * (y - y0) as i64 - (y1 - y0) as i64 * (x - x0) as i64).signum()
}

/// Whether the edges meet: their boxes do, and neither has both ends on one side of the other. For small numbers.
fn plainly_meet(one: &Edge, other: &Edge) -> bool {
    one.x0.min(one.x1) <= other.x0.max(other.x1)
        && other.x0.min(other.x1) <= one.x0.max(one.x1)
        && one.y0.min(one.y1) <= other.y0.max(other.y1)
        && other.y0.min(other.y1) <= one.y0.max(one.y1)
        && side_of(one, other.x0, other.y0) * side_of(one, other.x1, other.y1) <= 0
        && side_of(other, one.x0, one.y0) * side_of(other, one.x1, one.y1) <= 0
}

fn plain_meetings(edges: &[Edge]) -> Vec<(usize, usize)> {
    let pairs = (0..edges.len()).flat_map(|first| (first + 1..edges.len()).map(move |second| (first, second)));
    pairs
        .filter(|&(first, second)| plainly_meet(&edges[first], &edges[second]))
        .collect()
}

fn collide(one: &Segment, other: &Segment) -> bool {
    one.y == other.y && one.x0.max(other.x0) <= one.x1.min(other.x1)
}

/// What a sweep answers, by a look at each segment for each point, and at each pair of segments.
fn plainly_below(segments: &[Segment], points: &[Point]) -> Result<Vec<Option<i32>>, Fault> {
    let mut order: Vec<usize> = (0..segments.len()).collect();
    order.sort_by_key(|&place| (segments[place].x0, place));
    for (count, &place) in order.iter().enumerate() {
        if order[..count]
            .iter()
            .any(|&earlier| collide(&segments[earlier], &segments[place]))
        {
            return Err(Fault::Overlap(place));
        }
    }
    let is_under = |it: &&Segment, point: &Point| it.x0 <= point.x && point.x <= it.x1 && it.y <= point.y;
    let height = |point: &Point| segments.iter().filter(|it| is_under(it, point)).map(|it| it.y).max();
    Ok(points.iter().map(height).collect())
}

#[test]
fn answers_as_the_plain_model() {
    let mut random = Random(27);
    let (mut answered, mut overlapping) = (0, 0);
    for round in 0..4000 {
        let segments = random.segments(round % 12);
        let points = random.points(round % 7);
        let wanted = plainly_below(&segments, &points);
        if wanted.is_ok() {
            answered += 1;
        } else {
            overlapping += 1;
        }
        assert_eq!(below(&segments, &points), wanted, "{segments:?} {points:?}");
    }
    assert!(
        answered > 1000 && overlapping > 1000,
        "{answered} answered, {overlapping} overlapping"
    );
}

#[test]
fn tells_the_edges_that_meet() {
    let mut random = Random(28);
    for round in 0..2000 {
        let mut number = || random.below(9);
        let edge = |_| Edge {
            x0: number(),
            y0: number(),
            x1: number(),
            y1: number(),
        };
        let edges: Vec<Edge> = (0..round % 14).map(edge).collect();
        let mut found = meetings(&edges).unwrap();
        found.sort_unstable();
        assert_eq!(found, plain_meetings(&edges), "{edges:?}");
        let mut pairs = meetings_all(&edges).unwrap();
        pairs.sort_unstable();
        let places = pairs.iter().map(|pair| (pair.first, pair.second));
        assert!(places.eq(found), "{edges:?}");
    }
    assert_eq!(meetings(&[]), Ok(vec![]));
    assert!(meetings_all(&[]).unwrap().is_empty());
}

#[test]
fn tells_the_edges_of_two_lists_that_meet() {
    let mut random = Random(31);
    let mut meeting = 0;
    for round in 0..2000 {
        let mut edges_of = |count: usize| -> Vec<Edge> {
            let mut number = || random.below(9);
            let edge = |_| Edge {
                x0: number(),
                y0: number(),
                x1: number(),
                y1: number(),
            };
            (0..count).map(edge).collect()
        };
        let (edges, others, few) = (edges_of(round % 14), edges_of(round % 11), edges_of(round % 6));
        let mut pairs = meetings_between(&edges, &others).unwrap();
        pairs.sort_unstable();
        let all = (0..edges.len()).flat_map(|first| (0..others.len()).map(move |second| (first, second)));
        let wanted = all.filter(|&(first, second)| plainly_meet(&edges[first], &others[second]));
        let places = pairs.iter().map(|pair| (pair.first, pair.second));
        assert!(places.eq(wanted), "{edges:?} {others:?}");
        match first_meeting(&few).unwrap() {
            Some(pair) => {
                assert!(plain_meetings(&few).contains(&pair), "{few:?} {pair:?}");
                meeting += 1;
            }
            None => assert!(plain_meetings(&few).is_empty(), "{few:?}"),
        }
    }
    assert!(200 < meeting && meeting < 1800, "{meeting} meeting");
    assert!(meetings_between(&[], &[]).unwrap().is_empty());
    assert_eq!(first_meeting(&[]), Ok(None));
}

fn point_of(x: i32, y: i32) -> Edge {
    Edge {
        x0: x,
        y0: y,
        x1: x,
        y1: y,
    }
}

/// How the edges meet: by how many different ends are of both.
fn plain_kind(one: &Edge, other: &Edge) -> Meeting {
    if !plainly_meet(one, other) {
        return Meeting::Apart;
    }
    let ends = [one, other].map(|it| [(it.x0, it.y0), (it.x1, it.y1)]).concat();
    let is_shared = |&(x, y): &(i32, i32)| [one, other].iter().all(|it| plainly_meet(it, &point_of(x, y)));
    let shared: BTreeSet<_> = ends.into_iter().filter(is_shared).collect();
    match shared.len() {
        0 => Meeting::Cross,
        1 => Meeting::Touch,
        _ => Meeting::Share,
    }
}

#[test]
fn tells_how_edges_meet() {
    let mut random = Random(36);
    let mut told = HashMap::new();
    for round in 0..6000 {
        let limit = [3, 9, 4096][round % 3];
        let mut number = || random.below(limit);
        let mut edge = || Edge {
            x0: number(),
            y0: number(),
            x1: number(),
            y1: number(),
        };
        let (one, other) = (edge(), edge());
        let kind = how_they_meet(one, other);
        assert_eq!(kind, plain_kind(&one, &other), "{one:?} {other:?}");
        assert_eq!(kind, how_they_meet(other, one), "{one:?} {other:?}");
        *told.entry(kind).or_insert(0) += 1;
    }
    for kind in [Meeting::Apart, Meeting::Touch, Meeting::Cross, Meeting::Share] {
        assert!(told[&kind] > 30, "{told:?}");
    }
}

#[test]
fn is_refused_pairs_of_two_lists_where_memory_is() {
    let level = |y| Edge {
        x0: 0,
        y0: y,
        x1: 40,
        y1: y,
    };
    let upright = |x| Edge {
        x0: x,
        y0: 0,
        x1: x,
        y1: 40,
    };
    let (edges, others): (Vec<Edge>, Vec<Edge>) = ((0..20).map(level).collect(), (0..30).map(upright).collect());
    let mut requests = 0;
    while granted(requests, || meetings_between(&edges, &others)).is_err() {
        requests += 1;
    }
    assert!(requests > 4, "{requests} requests");
    assert_eq!(meetings_between(&edges, &others).unwrap().len(), 600);
    // A few edges are compared with one another, which takes no memory.
    let many: Vec<Edge> = (0..100).map(level).collect();
    let mut requests = 0;
    while granted(requests, || first_meeting(&many)) == Err(Refused) {
        requests += 1;
    }
    assert!(requests > 0, "{requests} requests");
    assert_eq!(first_meeting(&many), Ok(None));
}

#[test]
fn is_refused_pairs_where_memory_is() {
    let edges: Vec<Edge> = (0..40)
        .map(|y| Edge {
            x0: 0,
            y0: y,
            x1: 40,
            y1: 40 - y,
        })
        .collect();
    let mut requests = 0;
    while granted(requests, || meetings(&edges)) == Err(Refused) {
        requests += 1;
    }
    assert!(requests > 3, "{requests} requests");
    assert_eq!(meetings(&edges).map(|pairs| pairs.len()), Ok(780));
    let mut requests = 0;
    while granted(requests, || meetings_all(&edges)).is_err() {
        requests += 1;
    }
    assert!(requests > 4, "{requests} requests");
    let pairs = meetings_all(&edges).unwrap();
    let taken = std::thread::spawn(move || pairs.iter().filter(|pair| pair.first < pair.second).count());
    assert_eq!(taken.join().unwrap(), 780);
}

#[test]
fn breaks_edges_where_they_meet() {
    let cases: [(&[Row], &[Chain]); 4] = [
        (
            &[(0, 0, 10, 10), (0, 10, 10, 0)],
            &[&[(0, 0), (5, 5), (10, 10)], &[(0, 10), (5, 5), (10, 0)]],
        ),
        (
            &[(0, 0, 3, 1), (0, 1, 3, 0)],
            &[&[(0, 0), (2, 1), (3, 1)], &[(0, 1), (2, 1), (3, 0)]],
        ),
        (&[(7, 8, 7, 8)], &[&[(7, 8)]]),
        (&[], &[]),
    ];
    for (rows, wanted) in cases {
        let chains = snap(&edges_of(rows)).unwrap();
        assert_chains(&chains, wanted);
        let taken = std::thread::spawn(move || chains.iter().len());
        assert_eq!(taken.join().unwrap(), wanted.len());
    }
}

type Row = (i32, i32, i32, i32);

type Chain = &'static [(i32, i32)];

fn edges_of(rows: &[Row]) -> Vec<Edge> {
    let edge = |&(x0, y0, x1, y1): &Row| Edge { x0, y0, x1, y1 };
    rows.iter().map(edge).collect()
}

fn assert_chains(chains: &Chains, wanted: &[Chain]) {
    assert_eq!((chains.len(), chains.is_empty()), (wanted.len(), wanted.is_empty()));
    assert_eq!(chains.offsets().len(), wanted.len() + 1);
    assert_eq!(chains.points().len(), wanted.concat().len());
    for (place, chain) in chains.iter().enumerate() {
        let points: Vec<(i32, i32)> = chain.iter().map(|point| (point.x, point.y)).collect();
        assert_eq!(points, wanted[place], "{wanted:?}");
        assert_eq!(chains.chain(place), chain);
    }
}

#[test]
fn moves_only_edges_that_must_be_moved() {
    let cases: [(&[Row], &[Chain]); 4] = [
        (
            &[(0, 7, 2, 0), (2, 0, 2, 2), (2, 2, 0, 7)],
            &[&[(0, 7), (2, 0)], &[(2, 0), (2, 2)], &[(2, 2), (0, 7)]],
        ),
        (
            &[
                (0, 0, 3, 1),
                (0, 1, 3, 0),
                (10, 0, 14, 2),
                (12, 1, 12, 1),
                (11, 1, 11, 1),
            ],
            &[
                &[(0, 0), (2, 1), (3, 1)],
                &[(0, 1), (2, 1), (3, 0)],
                &[(10, 0), (12, 1), (14, 2)],
                &[(12, 1)],
                &[(11, 1)],
            ],
        ),
        // The first two cross at (30/13, 3/13). The first passes (8, 1), which so moves the last.
        (
            &[(0, 0, 10, 1), (0, 1, 3, 0), (8, 1, 8, 1), (6, 2, 9, 1)],
            &[
                &[(0, 0), (2, 0), (3, 0), (8, 1), (9, 1), (10, 1)],
                &[(0, 1), (2, 0), (3, 0)],
                &[(8, 1)],
                &[(6, 2), (8, 1), (9, 1)],
            ],
        ),
        (&[], &[]),
    ];
    for (rows, wanted) in cases {
        assert_chains(&node(&edges_of(rows)).unwrap(), wanted);
    }
}

#[test]
#[should_panic(expected = "there are 1 chains, and none at 1")]
fn has_no_chain_behind_the_last() {
    snap(&[point_of(7, 8)]).unwrap().chain(1);
}

#[test]
fn is_refused_chains_where_memory_is() {
    let edges: Vec<Edge> = (0..40)
        .map(|y| Edge {
            x0: 0,
            y0: y,
            x1: 40,
            y1: 40 - y,
        })
        .collect();
    for call in [snap, node] {
        let mut requests = 0;
        while granted(requests, || call(&edges)).is_err() {
            requests += 1;
        }
        assert!(requests > 4, "{requests} requests");
        assert_eq!(call(&edges).unwrap().len(), 40);
    }
}

fn rightwards(edge: &Edge) -> Edge {
    let Edge { x0, y0, x1, y1 } = *edge;
    if x0 <= x1 {
        *edge
    } else {
        Edge {
            x0: x1,
            y0: y1,
            x1: x0,
            y1: y0,
        }
    }
}

/// The height at x of an edge that goes to the right, times how far it goes. For small numbers.
fn height_by_run(edge: &Edge, x: i32) -> i64 {
    (edge.y0 * (edge.x1 - x) + edge.y1 * (x - edge.x0)) as i64
}

fn run(edge: &Edge) -> i64 {
    (edge.x1 - edge.x0) as i64
}

fn is_lower_at(one: &Edge, other: &Edge, x: i32) -> bool {
    height_by_run(one, x) * run(other) < height_by_run(other, x) * run(one)
}

/// Whether the one is below the other at some whole x that both span, and above it at another.
fn plainly_cross(one: &Edge, other: &Edge) -> bool {
    let (one, other) = (rightwards(one), rightwards(other));
    let common = || one.x0.max(other.x0)..=one.x1.min(other.x1);
    common().any(|x| is_lower_at(&one, &other, x)) && common().any(|x| is_lower_at(&other, &one, x))
}

fn is_under(edge: &Edge, point: &Point) -> bool {
    let edge = rightwards(edge);
    (edge.x0..edge.x1).contains(&point.x) && height_by_run(&edge, point.x) <= point.y as i64 * run(&edge)
}

/// Whether the answer is the place of an edge under the point than which no other one is higher, there or at the next
/// x, or none where none is under it.
fn is_straight_below(edges: &[Edge], point: &Point, answer: Option<usize>) -> bool {
    let mut under = edges.iter().filter(|edge| is_under(edge, point));
    match answer {
        Some(place) => {
            let told = rightwards(&edges[place]);
            let is_lower = |edge: &Edge| {
                [0, 1]
                    .iter()
                    .any(|&on| is_lower_at(&told, &rightwards(edge), point.x + on))
            };
            is_under(&told, point) && !under.any(is_lower)
        }
        None => under.next().is_none(),
    }
}

#[test]
fn locates_points_among_edges() {
    let mut random = Random(30);
    let mut crossing = 0;
    for round in 0..4000 {
        let edge = |_| {
            let (x, y) = (random.below(16), random.below(6));
            Edge {
                x0: x,
                y0: y,
                x1: x + random.below(11) - 5,
                y1: y + random.below(7) - 3,
            }
        };
        let edges: Vec<Edge> = (0..round % 14).map(edge).collect();
        let points = random.points(round % 11);
        let pairs = (0..edges.len()).flat_map(|second| (0..second).map(move |first| (first, second)));
        let crosses = |(first, second): (usize, usize)| plainly_cross(&edges[first], &edges[second]);
        match locate(&edges, &points) {
            Ok(found) => {
                assert!(!pairs.into_iter().any(crosses), "{edges:?}");
                assert_eq!(found.len(), points.len());
                for (point, answer) in points.iter().zip(found) {
                    assert!(
                        is_straight_below(&edges, point, answer),
                        "{edges:?} {point:?} {answer:?}"
                    );
                }
            }
            Err(LocateFault::Cross(first, second)) => {
                assert!(first < second && crosses((first, second)), "{edges:?} {first} {second}");
                crossing += 1;
            }
            Err(LocateFault::Refused) => panic!("refused"),
        }
    }
    assert!(1000 < crossing && crossing < 3000, "{crossing} crossing");
}

#[test]
fn locates_nothing_for_nothing() {
    let edge = Edge {
        x0: 0,
        y0: 0,
        x1: 9,
        y1: 9,
    };
    assert_eq!(locate(&[], &[]), Ok(vec![]));
    assert_eq!(locate(&[], &[Point { x: 1, y: 2 }]), Ok(vec![None]));
    assert_eq!(locate(&[edge], &[]), Ok(vec![]));
}

#[test]
fn locates_points_among_many_edges() {
    let edge = |place: i32| Edge {
        x0: place % 500,
        y0: place / 500 * 2 + place % 2,
        x1: place % 500 + 1,
        y1: place / 500 * 2 + (place + 1) % 2,
    };
    let edges: Vec<Edge> = (0..100_000).map(edge).collect();
    let points: Vec<Point> = (0..100_000)
        .map(|place| Point {
            x: place % 500,
            y: place / 500 * 2 + 1,
        })
        .collect();
    let wanted: Vec<Option<usize>> = (0..100_000).map(Some).collect();
    assert_eq!(locate(&edges, &points), Ok(wanted));
}

#[test]
fn tells_edges_that_cross() {
    let edges = [(0, 0, 9, 9), (20, 0, 21, 0), (9, 0, 0, 9)].map(|(x0, y0, x1, y1)| Edge { x0, y0, x1, y1 });
    let fault = locate(&edges, &[]).unwrap_err();
    assert_eq!(fault, LocateFault::Cross(0, 2));
    assert_eq!(fault.to_string(), "the edges at places 0 and 2 cross");
}

#[test]
fn is_refused_places_where_memory_is() {
    let edges: Vec<Edge> = (0..50)
        .map(|y| Edge {
            x0: 0,
            y0: y,
            x1: 100,
            y1: y + 1,
        })
        .collect();
    let points: Vec<Point> = (0..50).map(|y| Point { x: 3, y: y + 1 }).collect();
    let mut requests = 0;
    while granted(requests, || locate(&edges, &points)) == Err(LocateFault::Refused) {
        requests += 1;
    }
    assert!(requests >= 5, "{requests} requests");
    let wanted: Vec<Option<usize>> = (0..50).map(Some).collect();
    assert_eq!(granted(requests, || locate(&edges, &points)), Ok(wanted));
}

#[test]
fn answers_nothing_for_nothing() {
    assert_eq!(below(&[], &[]), Ok(vec![]));
    assert_eq!(below(&[], &[Point { x: 1, y: 2 }]), Ok(vec![None]));
    assert_eq!(below(&[Segment { x0: 1, x1: 2, y: 3 }], &[]), Ok(vec![]));
}

#[test]
fn tells_the_first_overlap() {
    let segments = [(0, 9, 1), (8, 9, 1), (3, 4, 1)].map(|(x0, x1, y)| Segment { x0, x1, y });
    let fault = below(&segments, &[]).unwrap_err();
    assert_eq!(fault, Fault::Overlap(2));
    assert_eq!(fault.to_string(), "the segment at place 2 overlaps an earlier one");
}

#[test]
fn is_refused_where_memory_is() {
    let segments: Vec<Segment> = (0..50).map(|y| Segment { x0: 0, x1: 100, y }).collect();
    let points: Vec<Point> = (0..50).map(|y| Point { x: 3, y }).collect();
    let wanted: Vec<Option<i32>> = (0..50).map(Some).collect();
    let mut requests = 0;
    while granted(requests, || below(&segments, &points)) == Err(Fault::Refused) {
        requests += 1;
    }
    assert!(requests >= 5, "{requests} requests");
    assert_eq!(granted(requests, || below(&segments, &points)), Ok(wanted));
}

#[test]
fn takes_the_least_and_the_greatest_numbers() {
    let whole = Segment {
        x0: i32::MIN,
        x1: i32::MAX,
        y: i32::MIN,
    };
    let last = Segment {
        x0: i32::MAX,
        x1: i32::MAX,
        y: i32::MAX,
    };
    let points = [
        Point {
            x: i32::MIN,
            y: i32::MIN,
        },
        Point {
            x: i32::MAX,
            y: i32::MAX,
        },
    ];
    assert_eq!(below(&[whole, last], &points), Ok(vec![Some(i32::MIN), Some(i32::MAX)]));
}
