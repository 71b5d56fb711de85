//! The same by the Rust crate, for bench/sweeps.cpp, bench/locates.cpp and bench/meetings.cpp: plain sweeps over its tree
//! of keys that expire, and one over its tree of segments.

use i_tree::key::exp::KeyExpCollection;
use i_tree::key::tree::KeyExpTree;
use i_tree::seg::exp::{SegExpCollection, SegRange};
use i_tree::seg::tree::SegExpTree;
use i_tree::{ExpiredKey, ExpiredVal};
use std::cmp::Ordering;
use std::ffi::c_void;
use std::slice::{from_raw_parts, from_raw_parts_mut};

#[repr(C)]
pub struct Segment {
    x0: i32,
    x1: i32,
    y: i32,
}

#[repr(C)]
pub struct Point {
    x: i32,
    y: i32,
}

#[repr(C)]
pub struct Height {
    found: i32,
    y: i32,
}

#[repr(C)]
pub struct Edge {
    x0: i32,
    y0: i32,
    x1: i32,
    y1: i32,
}

/// The height of a segment. A key of the Rust crate is live before its expiration, so this is one behind the segment's
/// end.
#[derive(Clone, Copy, PartialEq, Eq)]
struct Level {
    y: i32,
    expiration: i32,
}

impl Ord for Level {
    fn cmp(&self, other: &Self) -> Ordering {
        self.y.cmp(&other.y)
    }
}

impl PartialOrd for Level {
    fn partial_cmp(&self, other: &Self) -> Option<Ordering> {
        Some(self.cmp(other))
    }
}

impl ExpiredKey<i32> for Level {
    fn expiration(&self) -> i32 {
        self.expiration
    }
}

#[derive(Clone, Copy, PartialEq, Eq, PartialOrd, Ord)]
enum Task {
    Begin,
    Answer,
}

/// Answers as `itree_below` does, where no two segments collide.
///
/// # Safety
/// The pointers and lengths are those of arrays.
#[unsafe(no_mangle)]
pub unsafe extern "C" fn rust_below(
    segments: *const Segment,
    segment_count: usize,
    points: *const Point,
    point_count: usize,
    heights: *mut Height,
) {
    let (segments, points) = unsafe {
        (
            from_raw_parts(segments, segment_count),
            from_raw_parts(points, point_count),
        )
    };
    let heights = unsafe { from_raw_parts_mut(heights, point_count) };
    let mut events = Vec::with_capacity(segments.len() + points.len());
    let covering = segments.iter().enumerate().filter(|(_, it)| it.x0 <= it.x1);
    events.extend(covering.map(|(place, it)| (it.x0, Task::Begin, place)));
    events.extend(points.iter().enumerate().map(|(place, it)| (it.x, Task::Answer, place)));
    events.sort_unstable();
    let mut levels = KeyExpTree::new(0);
    for (x, task, place) in events {
        match task {
            Task::Begin => {
                let Segment { x1, y, .. } = segments[place];
                levels.insert(Level { y, expiration: x1 + 1 }, Some(y), x);
            }
            Task::Answer => {
                let height = points[place].y;
                let found = levels.first_less_or_equal_by(x, None, |level: Level| level.y.cmp(&height));
                heights[place] = Height {
                    found: found.is_some() as i32,
                    y: found.unwrap_or(0),
                };
            }
        }
    }
}

/// An edge's place, live up to its right end.
#[derive(Clone, Copy)]
struct Placed {
    place: usize,
    right: i32,
}

impl ExpiredVal<i32> for Placed {
    fn expiration(&self) -> i32 {
        self.right
    }
}

/// Tells the places of each two edges whose boxes may meet, once, and of no others that lie far apart. Nothing where
/// the edges' heights span fewer than the 32 buckets of a tree.
///
/// # Safety
/// The pointer and the length are those of an array, and `found` takes what is `given`.
#[unsafe(no_mangle)]
pub unsafe extern "C" fn rust_candidates(
    edges: *const Edge,
    edge_count: usize,
    found: extern "C" fn(*mut c_void, usize, usize),
    given: *mut c_void,
) {
    let edges = unsafe { from_raw_parts(edges, edge_count) };
    let heights_of = |it: &Edge| SegRange {
        min: it.y0.min(it.y1),
        max: it.y0.max(it.y1),
    };
    let lowest = edges.iter().map(|it| heights_of(it).min).min().unwrap_or(0);
    let highest = edges.iter().map(|it| heights_of(it).max).max().unwrap_or(0);
    let Some(mut live) = SegExpTree::new(SegRange {
        min: lowest,
        max: highest,
    }) else {
        return;
    };
    let mut order: Vec<usize> = (0..edges.len()).collect();
    order.sort_unstable_by_key(|&place| edges[place].x0.min(edges[place].x1));
    for place in order {
        let edge = &edges[place];
        let (left, right) = (edge.x0.min(edge.x1), edge.x0.max(edge.x1));
        for Placed { place: other, .. } in live.iter_by_range(heights_of(edge), left) {
            found(given, place, other);
        }
        live.insert_by_range(heights_of(edge), Placed { place, right });
    }
}

/// An edge that goes to the right, and its place. A key of the Rust crate is live before its expiration, here the edge's
/// end. The order holds among edges alone that don't cross and are live at once.
#[derive(Clone, Copy)]
struct Sloped {
    x0: i32,
    y0: i32,
    x1: i32,
    y1: i32,
    place: usize,
}

impl Sloped {
    /// How its height at x stands to y.
    fn stands_to(&self, x: i32, y: i32) -> Ordering {
        let (rise, run) = (self.y1 as i128 - self.y0 as i128, self.x1 as i128 - self.x0 as i128);
        (rise * (x as i128 - self.x0 as i128)).cmp(&((y as i128 - self.y0 as i128) * run))
    }

    fn slope_to(&self, other: &Self) -> Ordering {
        let rise = |it: &Self| it.y1 as i128 - it.y0 as i128;
        let run = |it: &Self| it.x1 as i128 - it.x0 as i128;
        (rise(self) * run(other)).cmp(&(rise(other) * run(self)))
    }
}

impl Ord for Sloped {
    fn cmp(&self, other: &Self) -> Ordering {
        let heights = if self.x0 <= other.x0 {
            self.stands_to(other.x0, other.y0)
        } else {
            other.stands_to(self.x0, self.y0).reverse()
        };
        let began = (self.x0, self.place).cmp(&(other.x0, other.place));
        heights.then_with(|| self.slope_to(other)).then(began)
    }
}

impl PartialOrd for Sloped {
    fn partial_cmp(&self, other: &Self) -> Option<Ordering> {
        Some(self.cmp(other))
    }
}

impl PartialEq for Sloped {
    fn eq(&self, other: &Self) -> bool {
        self.cmp(other).is_eq()
    }
}

impl Eq for Sloped {}

impl ExpiredKey<i32> for Sloped {
    fn expiration(&self) -> i32 {
        self.x1
    }
}

/// Answers as `itree_locate` does, where no two edges cross, which it doesn't test.
///
/// # Safety
/// The pointers and lengths are those of arrays.
#[unsafe(no_mangle)]
pub unsafe extern "C" fn rust_locate(
    edges: *const Edge,
    edge_count: usize,
    points: *const Point,
    point_count: usize,
    places: *mut usize,
) {
    let edges = unsafe { from_raw_parts(edges, edge_count) };
    let points = unsafe { from_raw_parts(points, point_count) };
    let places = unsafe { from_raw_parts_mut(places, point_count) };
    let mut events = Vec::with_capacity(edges.len() + points.len());
    let covering = edges.iter().enumerate().filter(|(_, it)| it.x0 != it.x1);
    events.extend(covering.map(|(place, it)| (it.x0.min(it.x1), Task::Begin, place)));
    events.extend(points.iter().enumerate().map(|(place, it)| (it.x, Task::Answer, place)));
    events.sort_unstable();
    let mut status = KeyExpTree::new(0);
    for (x, task, place) in events {
        match task {
            Task::Begin => {
                let Edge { x0, y0, x1, y1 } = edges[place];
                let edge = if x0 < x1 {
                    Sloped { x0, y0, x1, y1, place }
                } else {
                    Sloped { x0: x1, y0: y1, x1: x0, y1: y0, place }
                };
                status.insert(edge, place, x);
            }
            Task::Answer => {
                let y = points[place].y;
                places[place] = status.first_less_or_equal_by(x, usize::MAX, |edge: Sloped| edge.stands_to(x, y));
            }
        }
    }
}
