//! Whether polygons are valid, or what is wrong with them: at each kind of fault, at lengths that can't be, and with each request
//! for memory refused in turn.

use itree::{
    is_valid, overlay, polygons_fault, Edge, FillRule, Layer, LayerBuf, LayerFault, Operation, Point, PolygonsFault,
};
use refuse::granted;

mod refuse;

type Corners = &'static [(i32, i32)];

const BIG: Corners = &[(0, 0), (9, 0), (9, 9), (0, 9)];
const INNER: Corners = &[(1, 1), (2, 1), (1, 2)];
const FAR: Corners = &[(11, 1), (12, 1), (11, 2)];
const BOW: Corners = &[(0, 0), (9, 9), (9, 0), (0, 9)];
const ACROSS: Corners = &[(0, 4), (4, 3), (9, 4), (4, 5)];

fn points(ring: Corners) -> Vec<Point> {
    ring.iter().map(|&corner| Point::from(corner)).collect()
}

fn layer(polygons: &[&[Corners]]) -> LayerBuf {
    let all: Vec<Vec<Vec<Point>>> = polygons
        .iter()
        .map(|rings| rings.iter().map(|ring| points(ring)).collect())
        .collect();
    LayerBuf::new(&all).unwrap()
}

fn edge(x0: i32, y0: i32, x1: i32, y1: i32) -> Edge {
    Edge { x0, y0, x1, y1 }
}

#[test]
fn tells_each_kind() {
    let at = |x, y| Point { x, y };
    let rows: [(&[&[Corners]], Option<PolygonsFault>); 9] = [
        (&[], None),
        (&[&[BIG, INNER], &[FAR]], None),
        (&[&[BIG], &[&FAR[..2]]], Some(PolygonsFault::FewPoints { ring: 1 })),
        (
            &[&[FAR], &[BOW]],
            Some(PolygonsFault::MeetsItself {
                ring: 1,
                one: edge(0, 0, 9, 9),
                other: edge(9, 0, 0, 9),
            }),
        ),
        (
            &[&[BIG], &[&[(9, 0), (12, 0), (9, 9)]]],
            Some(PolygonsFault::RingsCross {
                one: edge(9, 0, 9, 9),
                other: edge(9, 9, 9, 0),
            }),
        ),
        (
            &[&[BIG, FAR]],
            Some(PolygonsFault::HolesOutside {
                polygon: 0,
                point: at(11, 1),
            }),
        ),
        (
            &[&[BIG], &[INNER]],
            Some(PolygonsFault::PolygonsOverlap { point: at(1, 1) }),
        ),
        (
            &[&[FAR], &[BIG, ACROSS]],
            Some(PolygonsFault::Disconnected {
                polygon: 1,
                ring: 1,
                point: at(9, 4),
            }),
        ),
        (&[&[ACROSS]], None),
    ];
    for (polygons, wanted) in rows {
        let given = layer(polygons);
        assert_eq!(polygons_fault(&given), Ok(wanted), "{polygons:?}");
        assert_eq!(is_valid(&given), Ok(wanted.is_none()));
        assert!(wanted.map_or(true, |fault| !fault.to_string().is_empty()));
    }
}

#[test]
fn answers_are_valid() {
    let polygons = overlay(
        &[points(BIG)],
        &[points(INNER)],
        Operation::Difference,
        FillRule::NonZero,
    )
    .unwrap();
    assert_eq!((polygons.len(), is_valid(&polygons)), (1, Ok(true)));
}

#[test]
fn lengths_that_cant_be() {
    let points = points(BIG);
    for (ring_ends, shape_ends) in [(&[5][..], &[1][..]), (&[4], &[2]), (&[4], &[])] {
        let given = Layer {
            points: &points,
            ring_ends,
            shape_ends,
        };
        assert_eq!(polygons_fault(given), Err(LayerFault::Lengths));
        assert_eq!(is_valid(given), Err(LayerFault::Lengths));
    }
}

#[test]
fn each_request_refused_in_turn() {
    let given = layer(&[&[BIG, ACROSS]]);
    let mut requests = 0;
    while granted(requests, || polygons_fault(&given)) == Err(LayerFault::Refused) {
        requests += 1;
    }
    assert!(requests > 5);
}
