//! Where a path meets itself, and what lies straight below some places.

use itree::{below, locate, meetings, Edge, LocateFault, Point, Segment};
use std::error::Error;

/// The edges of a path, from each of its points to the next one.
fn edges_of(path: &[Point]) -> Vec<Edge> {
    let edge = |ends: &[Point]| Edge {
        x0: ends[0].x,
        y0: ends[0].y,
        x1: ends[1].x,
        y1: ends[1].y,
    };
    path.windows(2).map(edge).collect()
}

/// The pairs of edges that meet though neither follows the other.
fn meets_itself(path: &[Edge]) -> Result<Vec<(usize, usize)>, itree::Refused> {
    let mut pairs = meetings(path)?;
    pairs.retain(|(first, second)| first + 1 < *second);
    pairs.sort_unstable();
    Ok(pairs)
}

fn main() -> Result<(), Box<dyn Error>> {
    let points = [(0, 0), (10, 10), (10, 0), (0, 10), (4, 12)].map(|(x, y)| Point { x, y });
    let path = edges_of(&points);
    println!("meet: {:?}", meets_itself(&path)?);

    match locate(&path, &points) {
        Err(LocateFault::Cross(first, second)) => println!("edges {first} and {second} cross"),
        answer => println!("{:?}", answer?),
    }
    println!("below: {:?}", locate(&path[..2], &[Point { x: 4, y: 9 }, Point { x: 4, y: 1 }])?);

    let shelves = [(0, 10, 5), (2, 6, 8)].map(|(x0, x1, y)| Segment { x0, x1, y });
    println!("heights: {:?}", below(&shelves, &[Point { x: 6, y: 7 }, Point { x: 11, y: 9 }])?);
    Ok(())
}
