//! Pairs of edges that meet, edges broken where they meet, polygons of what two sets of rings make, the same of many shapes
//! at once, which points lie in which shapes, lines that are clipped, and the edge or the horizontal segment straight below a
//! point, by a library that is proved in Rattle: slices in, a `Result` out.
//!
//! ```
//! use itree::{below, locate, meetings, Edge, Point, Segment};
//!
//! let edges = [Edge { x0: 0, y0: 0, x1: 9, y1: 9 }, Edge { x0: 0, y0: 9, x1: 9, y1: 0 }];
//! assert_eq!(meetings(&edges), Ok(vec![(0, 1)]));
//! assert_eq!(locate(&edges[..1], &[Point { x: 4, y: 5 }, Point { x: 4, y: 3 }]), Ok(vec![Some(0), None]));
//!
//! let segments = [Segment { x0: 0, x1: 10, y: 5 }, Segment { x0: 2, x1: 6, y: 8 }];
//! let points = [Point { x: 6, y: 7 }, Point { x: 11, y: 9 }];
//! assert_eq!(below(&segments, &points), Ok(vec![Some(5), None]));
//! ```
//!
//! Numbers are 32-bit and whole, in a unit of the caller's, and a `Grid` makes such numbers of doubles, and doubles again;
//! places count from 0. Points and edges are made of tuples and arrays too: `Point::from((4, 5))`.

#![deny(missing_docs)]

use std::collections::TryReserveError;
use std::error::Error;
use std::ffi::CStr;
use std::fmt::{self, Debug, Display, Formatter};
use std::ops::{Deref, DerefMut, Range};
use std::ptr::{self, NonNull};
use std::slice;

pub use grid::{overlay_on, simplify_on, Grid, GridFault, Position, PositionRings, ToRings};
pub use layers::{
    candidate_pairs, clip_lines, clip_lines_by_rings, clip_lines_on, overlay_each, overlay_groups, parents, points_in,
    Border, Groups, Layer, LayerBuf, LayerFault, Lines, Overlays, OverlaysIter, Pieces, Side,
};
pub use limits::{limited_to, memory_peak, stopped_by};
pub use offsets::{circle, erode, grow_lines, minkowski, minkowski_joined, Circle, CircleFault, Join, MinkowskiFault};
pub use tiles::{crop, join, overlay_in, overlay_threads, whole_window, Tile, TileFault, Window};
pub use validity::{is_valid, polygons_fault, PolygonsFault};
pub use wkb::{read_wkb, wkb_corners, wkb_srid, Shapes, WkbFault, WkbFaultKind};

mod grid;
mod layers;
mod limits;
mod offsets;
mod tiles;
mod validity;
mod wkb;

/// The version of the library, as `"0.7.1"`.
pub fn version() -> &'static str {
    // SAFETY: the library answers a text that ends with 0 and stays.
    unsafe { CStr::from_ptr(calls::itree_version()) }
        .to_str()
        .unwrap_or_default()
}

/// A horizontal segment at the height `y`, from `x0` to `x1`, both of which it covers. One with `x1 < x0` covers
/// nothing. They are ordered by `x0`, then `x1`, then `y`.
#[repr(C)]
#[derive(Clone, Copy, Debug, Default, PartialEq, Eq, PartialOrd, Ord, Hash)]
pub struct Segment {
    /// The first x that it covers.
    pub x0: i32,
    /// The last x that it covers.
    pub x1: i32,
    /// Its height.
    pub y: i32,
}

/// A point. They are ordered by `x`, then `y`.
#[repr(C)]
#[derive(Clone, Copy, Debug, Default, PartialEq, Eq, PartialOrd, Ord, Hash)]
pub struct Point {
    /// How far it lies along the segments.
    pub x: i32,
    /// Its height.
    pub y: i32,
}

/// A straight line from `(x0, y0)` to `(x1, y1)`, both of which are of it. It may be a point. They are ordered by `x0`,
/// then `y0`, `x1` and `y1`, and one that is turned round is another one.
#[repr(C)]
#[derive(Clone, Copy, Debug, Default, PartialEq, Eq, PartialOrd, Ord, Hash)]
pub struct Edge {
    /// Where the one end lies along the first axis.
    pub x0: i32,
    /// Where it lies along the second axis.
    pub y0: i32,
    /// Where the other end lies along the first axis.
    pub x1: i32,
    /// Where it lies along the second axis.
    pub y1: i32,
}

impl From<(i32, i32)> for Point {
    fn from((x, y): (i32, i32)) -> Point {
        Point { x, y }
    }
}

impl From<[i32; 2]> for Point {
    fn from([x, y]: [i32; 2]) -> Point {
        Point { x, y }
    }
}

impl From<Point> for (i32, i32) {
    fn from(point: Point) -> (i32, i32) {
        (point.x, point.y)
    }
}

impl From<Point> for [i32; 2] {
    fn from(point: Point) -> [i32; 2] {
        [point.x, point.y]
    }
}

impl From<(i32, i32, i32, i32)> for Edge {
    fn from((x0, y0, x1, y1): (i32, i32, i32, i32)) -> Edge {
        Edge { x0, y0, x1, y1 }
    }
}

impl From<[i32; 4]> for Edge {
    fn from([x0, y0, x1, y1]: [i32; 4]) -> Edge {
        Edge { x0, y0, x1, y1 }
    }
}

/// From the one point to the other, which may be tuples or arrays.
impl<P: Into<Point>> From<(P, P)> for Edge {
    fn from((from, to): (P, P)) -> Edge {
        Edge::from([from, to])
    }
}

/// From the one point to the other, which may be tuples or arrays.
impl<P: Into<Point>> From<[P; 2]> for Edge {
    fn from(ends: [P; 2]) -> Edge {
        let [from, to] = ends.map(Into::into);
        Edge {
            x0: from.x,
            y0: from.y,
            x1: to.x,
            y1: to.y,
        }
    }
}

impl From<(i32, i32, i32)> for Segment {
    fn from((x0, x1, y): (i32, i32, i32)) -> Segment {
        Segment { x0, x1, y }
    }
}

/// Memory was refused, or a call was stopped by the flag of `stopped_by`.
#[derive(Clone, Copy, Debug, PartialEq, Eq, Hash)]
pub struct Refused;

impl Display for Refused {
    fn fmt(&self, f: &mut Formatter<'_>) -> fmt::Result {
        write!(f, "{REFUSED}")
    }
}

const REFUSED: &str = "memory was refused, or the call was stopped";

impl Error for Refused {}

impl From<TryReserveError> for Refused {
    fn from(_refused: TryReserveError) -> Refused {
        Refused
    }
}

/// Why a sweep has no answers.
#[derive(Clone, Copy, Debug, PartialEq, Eq, Hash)]
pub enum Fault {
    /// Memory was refused, or the call was stopped.
    Refused,
    /// The segment at this place is the first, in the order of `x0` and then of place, that collides with one before
    /// it.
    Overlap(usize),
}

impl Display for Fault {
    fn fmt(&self, f: &mut Formatter<'_>) -> fmt::Result {
        match self {
            Fault::Refused => write!(f, "{REFUSED}"),
            Fault::Overlap(place) => write!(f, "the segment at place {place} overlaps an earlier one"),
        }
    }
}

impl Error for Fault {}

impl From<TryReserveError> for Fault {
    fn from(_refused: TryReserveError) -> Fault {
        Fault::Refused
    }
}

/// Why points among edges have no answers.
#[derive(Clone, Copy, Debug, PartialEq, Eq, Hash)]
pub enum LocateFault {
    /// Memory was refused, or the call was stopped.
    Refused,
    /// The edges at these two places cross, of which the first is the lesser.
    Cross(usize, usize),
}

impl Display for LocateFault {
    fn fmt(&self, f: &mut Formatter<'_>) -> fmt::Result {
        match self {
            LocateFault::Refused => write!(f, "{REFUSED}"),
            LocateFault::Cross(first, second) => write!(f, "the edges at places {first} and {second} cross"),
        }
    }
}

impl Error for LocateFault {}

impl From<TryReserveError> for LocateFault {
    fn from(_refused: TryReserveError) -> LocateFault {
        LocateFault::Refused
    }
}

/// How two edges meet.
#[derive(Clone, Copy, Debug, PartialEq, Eq, Hash)]
pub enum Meeting {
    /// They share no point.
    Apart,
    /// They share one point alone, and it is an end of one of them or of both.
    Touch,
    /// They share one point alone, and it is an end of neither.
    Cross,
    /// They share more than one point: a whole stretch of a line.
    Share,
}

/// The places of two edges that meet: of one list, `first` below `second`, or one of each of two lists. They are ordered by `first`, then `second`.
#[repr(C)]
#[derive(Clone, Copy, Debug, Default, PartialEq, Eq, PartialOrd, Ord, Hash)]
pub struct Pair {
    /// The lesser place, or that of the first list.
    pub first: usize,
    /// The greater place, or that of the second list.
    pub second: usize,
}

/// Pairs where the library wrote them, as a slice, which may be written too, as to sort it. They are given back where this
/// is dropped.
pub struct Pairs {
    handle: NonNull<calls::Handle>,
    first: *mut Pair,
    count: usize,
}

// SAFETY: the pairs are this value's own, their memory is the process's, and by a shared reference they are only read.
unsafe impl Send for Pairs {}
unsafe impl Sync for Pairs {}

impl Deref for Pairs {
    type Target = [Pair];

    fn deref(&self) -> &[Pair] {
        if self.count == 0 {
            return &[];
        }
        // SAFETY: so many pairs lie there, until the handle is given back, and nothing else leads there.
        unsafe { slice::from_raw_parts(self.first, self.count) }
    }
}

impl DerefMut for Pairs {
    fn deref_mut(&mut self) -> &mut [Pair] {
        if self.count == 0 {
            return &mut [];
        }
        // SAFETY: as in `deref`.
        unsafe { slice::from_raw_parts_mut(self.first, self.count) }
    }
}

impl Drop for Pairs {
    fn drop(&mut self) {
        // SAFETY: the handle is this value's own.
        unsafe { calls::itree_pairs_free(self.handle.as_ptr()) }
    }
}

impl Debug for Pairs {
    fn fmt(&self, f: &mut Formatter<'_>) -> fmt::Result {
        f.debug_list().entries(self.iter()).finish()
    }
}

impl<'a> IntoIterator for &'a Pairs {
    type Item = &'a Pair;
    type IntoIter = slice::Iter<'a, Pair>;

    fn into_iter(self) -> slice::Iter<'a, Pair> {
        self.iter()
    }
}

/// Chains of points, one for each edge, or for each ring, where the library wrote them. They are given back where this is dropped.
pub struct Chains {
    handle: NonNull<calls::Handle>,
    points: *const Point,
    point_count: usize,
    offsets: *const usize,
    count: usize,
}

// SAFETY: the chains are this value's own, their memory is the process's, and they are only read.
unsafe impl Send for Chains {}
unsafe impl Sync for Chains {}

impl Chains {
    /// How many chains there are: as many as there were edges, or rings.
    pub fn len(&self) -> usize {
        self.count
    }

    /// Whether there is no chain.
    pub fn is_empty(&self) -> bool {
        self.count == 0
    }

    /// The chain of the edge, or of the ring, at this place. Panics where there is none.
    pub fn chain(&self, place: usize) -> &[Point] {
        assert!(
            place < self.count,
            "there are {} chains, and none at {place}",
            self.count
        );
        let offsets = self.offsets();
        &self.points()[offsets[place]..offsets[place + 1]]
    }

    /// The chains, in the order of their edges, or rings.
    pub fn iter(&self) -> impl ExactSizeIterator<Item = &[Point]> {
        let points = self.points();
        self.offsets().windows(2).map(move |it| &points[it[0]..it[1]])
    }

    /// The points of all chains, one chain behind the other.
    pub fn points(&self) -> &[Point] {
        if self.point_count == 0 {
            return &[];
        }
        // SAFETY: so many points lie there, until the handle is given back, and nothing else leads there.
        unsafe { slice::from_raw_parts(self.points, self.point_count) }
    }

    /// Where each chain begins among the points, and at last how many points there are: one number more than there are
    /// chains.
    pub fn offsets(&self) -> &[usize] {
        // SAFETY: as in `points`; there is one offset more than there are chains.
        unsafe { slice::from_raw_parts(self.offsets, self.count + 1) }
    }
}

impl Drop for Chains {
    fn drop(&mut self) {
        // SAFETY: the handle is this value's own.
        unsafe { calls::itree_chains_free(self.handle.as_ptr()) }
    }
}

impl Debug for Chains {
    fn fmt(&self, f: &mut Formatter<'_>) -> fmt::Result {
        f.debug_list().entries(self.iter()).finish()
    }
}

/// Which points are inside of rings: by how often the rings go round a point counterclockwise, where y points upwards, less
/// how often they go round it clockwise.
#[derive(Clone, Copy, Debug, PartialEq, Eq, Hash)]
pub enum FillRule {
    /// An odd number of times.
    EvenOdd = 0,
    /// Any number of times but 0.
    NonZero = 1,
    /// More than 0 times.
    Positive = 2,
    /// Less than 0 times.
    Negative = 3,
}

/// What becomes of the inside of a subject and that of a clip.
#[derive(Clone, Copy, Debug, PartialEq, Eq, Hash)]
pub enum Operation {
    /// The points of either.
    Union = 0,
    /// The points of both.
    Intersection = 1,
    /// The points of the subject that aren't of the clip.
    Difference = 2,
    /// The points of just one of the two.
    Xor = 3,
}

/// Why there are no polygons.
#[derive(Clone, Copy, Debug, PartialEq, Eq, Hash)]
pub enum OverlayFault {
    /// Memory was refused, or the call was stopped.
    Refused,
    /// A ring stops before it begins, or behind the points.
    Lengths,
}

impl Display for OverlayFault {
    fn fmt(&self, f: &mut Formatter<'_>) -> fmt::Result {
        match self {
            OverlayFault::Refused => write!(f, "{REFUSED}"),
            OverlayFault::Lengths => write!(f, "a ring stops before it begins, or behind the points"),
        }
    }
}

impl Error for OverlayFault {}

/// Rings: the points of all of them, one ring after the other, and where each stops among these. So the ends are the
/// offsets of the Arrow format without the first, which is 0; points behind the last end are of no ring.
#[derive(Clone, Copy, Debug, Default, PartialEq, Eq)]
pub struct Rings<'a> {
    /// The points of all rings.
    pub points: &'a [Point],
    /// For each ring, the place among the points at which it stops.
    pub ends: &'a [usize],
}

/// A polygon in memory that is its `Polygons`'.
#[derive(Clone, Copy, PartialEq, Eq)]
pub struct Polygon<'a> {
    points: &'a [Point],
    /// Where each of its rings begins among the points, and where the last stops.
    offsets: &'a [usize],
}

impl<'a> Polygon<'a> {
    /// The outer ring, which runs counterclockwise.
    pub fn outer(&self) -> &'a [Point] {
        &self.points[self.offsets[0]..self.offsets[1]]
    }

    /// The holes, which run clockwise.
    pub fn holes(&self) -> impl ExactSizeIterator<Item = &'a [Point]> {
        rings_at(self.points, &self.offsets[1..])
    }

    /// The outer ring, and behind it the holes.
    pub fn rings(&self) -> impl ExactSizeIterator<Item = &'a [Point]> {
        rings_at(self.points, self.offsets)
    }
}

impl Debug for Polygon<'_> {
    fn fmt(&self, f: &mut Formatter<'_>) -> fmt::Result {
        f.debug_list().entries(self.rings()).finish()
    }
}

/// The rings that begin and stop at these places.
fn rings_at<'a>(points: &'a [Point], offsets: &'a [usize]) -> impl ExactSizeIterator<Item = &'a [Point]> {
    offsets.windows(2).map(move |it| &points[it[0]..it[1]])
}

/// Polygons where the library wrote them. They are given back where this is dropped.
pub struct Polygons {
    handle: NonNull<calls::Handle>,
    points: *const Point,
    point_count: usize,
    ring_offsets: *const usize,
    ring_offset_count: usize,
    polygon_offsets: *const usize,
    polygon_offset_count: usize,
}

// SAFETY: the polygons are this value's own, their memory is the process's, and they are only read.
unsafe impl Send for Polygons {}
unsafe impl Sync for Polygons {}

impl Polygons {
    /// How many polygons there are.
    pub fn len(&self) -> usize {
        self.polygon_offset_count - 1
    }

    /// Whether there is no polygon.
    pub fn is_empty(&self) -> bool {
        self.len() == 0
    }

    /// The polygon at this place. Panics where there is none.
    pub fn polygon(&self, place: usize) -> Polygon<'_> {
        assert!(
            place < self.len(),
            "there are {} polygons, and none at {place}",
            self.len()
        );
        let offsets = self.polygon_offsets();
        Polygon {
            points: self.points(),
            offsets: &self.ring_offsets()[offsets[place]..=offsets[place + 1]],
        }
    }

    /// The polygons.
    pub fn iter(&self) -> PolygonsIter<'_> {
        PolygonsIter {
            polygons: self,
            places: 0..self.len(),
        }
    }

    /// The points of all rings, one ring behind the other.
    pub fn points(&self) -> &[Point] {
        if self.point_count == 0 {
            return &[];
        }
        // SAFETY: so many points lie there, until the handle is given back, and nothing else leads there.
        unsafe { slice::from_raw_parts(self.points, self.point_count) }
    }

    /// Where each ring begins among the points, and at last how many points there are: one number more than there are
    /// rings.
    pub fn ring_offsets(&self) -> &[usize] {
        // SAFETY: as in `points`; there is one offset more than there are rings.
        unsafe { slice::from_raw_parts(self.ring_offsets, self.ring_offset_count) }
    }

    /// Where each polygon begins among the rings, and at last how many rings there are: one number more than there are
    /// polygons.
    pub fn polygon_offsets(&self) -> &[usize] {
        // SAFETY: as in `points`; there is one offset more than there are polygons.
        unsafe { slice::from_raw_parts(self.polygon_offsets, self.polygon_offset_count) }
    }

    /// The rings of all polygons, as `overlay_rings` takes them.
    pub fn rings(&self) -> Rings<'_> {
        Rings {
            points: self.points(),
            ends: &self.ring_offsets()[1..],
        }
    }
}

impl Drop for Polygons {
    fn drop(&mut self) {
        // SAFETY: the handle is this value's own.
        unsafe { calls::itree_polygons_free(self.handle.as_ptr()) }
    }
}

impl Debug for Polygons {
    fn fmt(&self, f: &mut Formatter<'_>) -> fmt::Result {
        f.debug_list().entries(self.iter()).finish()
    }
}

impl<'a> IntoIterator for &'a Polygons {
    type Item = Polygon<'a>;
    type IntoIter = PolygonsIter<'a>;

    fn into_iter(self) -> PolygonsIter<'a> {
        self.iter()
    }
}

/// Goes over polygons.
#[derive(Clone, Debug)]
pub struct PolygonsIter<'a> {
    polygons: &'a Polygons,
    places: Range<usize>,
}

impl<'a> Iterator for PolygonsIter<'a> {
    type Item = Polygon<'a>;

    fn next(&mut self) -> Option<Polygon<'a>> {
        self.places.next().map(|place| self.polygons.polygon(place))
    }

    fn size_hint(&self) -> (usize, Option<usize>) {
        self.places.size_hint()
    }
}

impl DoubleEndedIterator for PolygonsIter<'_> {
    fn next_back(&mut self) -> Option<Self::Item> {
        self.places.next_back().map(|place| self.polygons.polygon(place))
    }
}

impl ExactSizeIterator for PolygonsIter<'_> {}

/// The calls of `itree.h`.
mod calls {
    use super::{Edge, Grid, Pair, Point, Position, Segment, Window};
    use std::os::raw::c_char;

    pub const ANSWERED: i32 = 0;
    pub const OVERLAP: i32 = 2;
    pub const LENGTHS: i32 = 3;
    pub const CHOICE: i32 = 5;
    pub const CROSSING: i32 = 6;
    pub const MEETING: i32 = 7;
    pub const FAULTY: i32 = 8;
    pub const WINDOW: i32 = 10;
    pub const UNFIT: i32 = 11;
    pub const SHAPE: i32 = 12;
    pub const RANGE: i32 = 13;

    pub const MULTIPOLYGON: i32 = 0;
    pub const EACH_POLYGON: i32 = 1;

    pub const APART: i32 = 0;
    pub const TOUCH: i32 = 1;
    pub const CROSS: i32 = 2;

    #[repr(C)]
    #[derive(Clone, Copy)]
    pub struct Height {
        pub found: i32,
        pub y: i32,
    }

    /// What a handle points to, which is the library's.
    #[repr(C)]
    pub struct Handle {
        _hidden: [u8; 0],
    }

    #[repr(C)]
    pub struct Shapes {
        pub points: *const Point,
        pub point_count: usize,
        pub ring_ends: *const usize,
        pub ring_count: usize,
        pub shape_ends: *const usize,
        pub shape_count: usize,
    }

    #[repr(C)]
    pub struct Groups {
        pub places: *const usize,
        pub place_count: usize,
        pub ends: *const usize,
        pub group_count: usize,
    }

    #[repr(C)]
    pub struct Lines {
        pub points: *const Point,
        pub point_count: usize,
        pub ends: *const usize,
        pub line_count: usize,
    }

    #[repr(C)]
    #[derive(Default)]
    pub struct FaultPlace {
        pub kind: usize,
        pub polygon: usize,
        pub ring: usize,
        pub point: Point,
        pub one: Edge,
        pub other: Edge,
    }

    #[repr(C)]
    #[derive(Clone, Copy)]
    pub struct Place {
        pub found: usize,
        pub place: usize,
    }

    #[repr(C)]
    #[derive(Clone, Copy, Default)]
    pub struct WkbPlace {
        pub kind: usize,
        pub shape: usize,
        pub byte: usize,
    }

    extern "C" {
        pub fn itree_version() -> *const c_char;

        pub fn itree_limit_memory(bytes: usize);

        pub fn itree_memory_peak() -> usize;

        pub fn itree_stop_flag(flag: *const i32);

        pub fn itree_grid_fit(positions: *const Position, count: usize, grid: *mut Grid, fault: *mut usize) -> i32;

        pub fn itree_grid_round(
            grid: *const Grid,
            positions: *const Position,
            count: usize,
            points: *mut Point,
            point_count: usize,
            fault: *mut usize,
        ) -> i32;

        pub fn itree_grid_positions(
            grid: *const Grid,
            points: *const Point,
            count: usize,
            positions: *mut Position,
            position_count: usize,
        ) -> i32;

        pub fn itree_wkb_corners(
            bytes: *const u8,
            byte_count: usize,
            offsets: *const usize,
            offset_count: usize,
            corners: *mut Position,
            corner_count: usize,
            found: *mut usize,
            fault: *mut WkbPlace,
        ) -> i32;

        pub fn itree_wkb_read(
            bytes: *const u8,
            byte_count: usize,
            offsets: *const usize,
            offset_count: usize,
            grid: *const Grid,
            shapes: *mut *mut Handle,
            fault: *mut WkbPlace,
        ) -> i32;

        pub fn itree_wkb_srid(bytes: *const u8, byte_count: usize, srid: *mut u32) -> i32;

        pub fn itree_wkb_write(
            points: *const Point,
            point_count: usize,
            ring_ends: *const usize,
            rings: usize,
            polygon_ends: *const usize,
            polygons: usize,
            grid: *const Grid,
            form: i32,
            srid: u32,
            bytes: *mut u8,
            byte_count: usize,
            size: *mut usize,
        ) -> i32;

        pub fn itree_below(
            segments: *const Segment,
            segment_count: usize,
            points: *const Point,
            point_count: usize,
            heights: *mut Height,
            height_count: usize,
            overlap: *mut usize,
        ) -> i32;

        pub fn itree_meetings_all(edges: *const Edge, edge_count: usize, pairs: *mut *mut Handle) -> i32;

        pub fn itree_meetings_between(
            edges: *const Edge,
            edge_count: usize,
            others: *const Edge,
            other_count: usize,
            pairs: *mut *mut Handle,
        ) -> i32;

        pub fn itree_first_meeting(edges: *const Edge, edge_count: usize, first: *mut usize, second: *mut usize)
            -> i32;

        pub fn itree_how_they_meet(one: *const Edge, other: *const Edge, meeting: *mut i32) -> i32;

        pub fn itree_pairs_count(pairs: *const Handle) -> usize;

        pub fn itree_pairs_first(pairs: *mut Handle) -> *mut Pair;

        pub fn itree_pairs_free(pairs: *mut Handle);

        pub fn itree_snap(edges: *const Edge, edge_count: usize, chains: *mut *mut Handle) -> i32;

        pub fn itree_node(edges: *const Edge, edge_count: usize, chains: *mut *mut Handle) -> i32;

        pub fn itree_chains_count(chains: *const Handle) -> usize;

        pub fn itree_chains_point_count(chains: *const Handle) -> usize;

        pub fn itree_chains_points(chains: *mut Handle) -> *mut Point;

        pub fn itree_chains_offsets(chains: *mut Handle) -> *mut usize;

        pub fn itree_chains_free(chains: *mut Handle);

        pub fn itree_overlay(
            subject: *const Point,
            subject_count: usize,
            subject_ends: *const usize,
            subject_rings: usize,
            clip: *const Point,
            clip_count: usize,
            clip_ends: *const usize,
            clip_rings: usize,
            rule: i32,
            operation: i32,
            polygons: *mut *mut Handle,
        ) -> i32;

        pub fn itree_overlay_in(
            window: *const Window,
            subject: *const Point,
            subject_count: usize,
            subject_ends: *const usize,
            subject_rings: usize,
            clip: *const Point,
            clip_count: usize,
            clip_ends: *const usize,
            clip_rings: usize,
            rule: i32,
            operation: i32,
            polygons: *mut *mut Handle,
        ) -> i32;

        pub fn itree_crop(
            window: *const Window,
            points: *const Point,
            point_count: usize,
            ring_ends: *const usize,
            ring_count: usize,
            cropped: *mut *mut Handle,
        ) -> i32;

        pub fn itree_minkowski(
            points: *const Point,
            point_count: usize,
            ring_ends: *const usize,
            ring_count: usize,
            shape: *const Point,
            corner_count: usize,
            rule: i32,
            polygons: *mut *mut Handle,
        ) -> i32;

        pub fn itree_minkowski_joined(
            points: *const Point,
            point_count: usize,
            ring_ends: *const usize,
            ring_count: usize,
            shape: *const Point,
            corner_count: usize,
            rule: i32,
            join: i32,
            limit: u32,
            polygons: *mut *mut Handle,
        ) -> i32;

        pub fn itree_erode(
            points: *const Point,
            point_count: usize,
            ring_ends: *const usize,
            ring_count: usize,
            shape: *const Point,
            corner_count: usize,
            rule: i32,
            polygons: *mut *mut Handle,
        ) -> i32;

        pub fn itree_grow_lines(
            points: *const Point,
            point_count: usize,
            line_ends: *const usize,
            line_count: usize,
            shape: *const Point,
            corner_count: usize,
            polygons: *mut *mut Handle,
        ) -> i32;

        pub fn itree_circle(
            radius: i32,
            most: usize,
            corners: *mut Point,
            corner_count: usize,
            count: *mut usize,
            inner: *mut i32,
        ) -> i32;

        pub fn itree_whole_window(
            windows: *const Window,
            window_count: usize,
            whole: *mut Window,
            found: *mut i32,
        ) -> i32;

        pub fn itree_join(
            windows: *const Window,
            window_count: usize,
            tile_ends: *const usize,
            tile_count: usize,
            polygon_ends: *const usize,
            polygon_count: usize,
            ring_ends: *const usize,
            ring_count: usize,
            points: *const Point,
            point_count: usize,
            polygons: *mut *mut Handle,
        ) -> i32;

        pub fn itree_polygons_points(polygons: *const Handle, first: *mut *const Point) -> usize;

        pub fn itree_polygons_ring_offsets(polygons: *const Handle, first: *mut *const usize) -> usize;

        pub fn itree_polygons_polygon_offsets(polygons: *const Handle, first: *mut *const usize) -> usize;

        pub fn itree_polygons_free(polygons: *mut Handle);

        pub fn itree_overlay_each(
            subjects: *const Shapes,
            subject_groups: *const Groups,
            clips: *const Shapes,
            clip_groups: *const Groups,
            rule: i32,
            operation: i32,
            ends: *mut usize,
            end_count: usize,
            polygons: *mut *mut Handle,
        ) -> i32;

        pub fn itree_box_pairs(shapes: *const Shapes, others: *const Shapes, pairs: *mut *mut Handle) -> i32;

        pub fn itree_points_in(
            points: *const Point,
            count: usize,
            shapes: *const Shapes,
            rule: i32,
            border: i32,
            pairs: *mut *mut Handle,
        ) -> i32;

        pub fn itree_clip_lines(
            lines: *const Lines,
            rings: *const Point,
            count: usize,
            ring_ends: *const usize,
            ring_count: usize,
            rule: i32,
            side: i32,
            pieces: *mut *mut Handle,
        ) -> i32;

        pub fn itree_polygon_parents(polygons: *const Shapes, parents: *mut usize, parent_count: usize) -> i32;

        pub fn itree_polygons_fault(polygons: *const Shapes, fault: *mut FaultPlace) -> i32;

        pub fn itree_locate(
            edges: *const Edge,
            edge_count: usize,
            points: *const Point,
            point_count: usize,
            places: *mut Place,
            place_count: usize,
            first: *mut usize,
            second: *mut usize,
        ) -> i32;
    }
}

/// For each point, in order, the greatest height at most its own among the segments that cover its x, if there is one.
///
/// Two segments collide where they have one height and both cover some x: then the answer is `Fault::Overlap`. It may
/// be `Fault::Refused` in that case too, where there is little memory.
pub fn below(segments: &[Segment], points: &[Point]) -> Result<Vec<Option<i32>>, Fault> {
    let mut heights = items(points.len(), calls::Height { found: 0, y: 0 })?;
    let mut overlap = 0;
    // SAFETY: each pointer and length are those of a slice, and those that are written are of values of this call.
    let status = unsafe {
        calls::itree_below(
            segments.as_ptr(),
            segments.len(),
            points.as_ptr(),
            points.len(),
            heights.as_mut_ptr(),
            heights.len(),
            &mut overlap,
        )
    };
    match status {
        calls::ANSWERED => {
            let mut found = items(points.len(), None)?;
            for (answer, height) in found.iter_mut().zip(&heights) {
                *answer = (height.found != 0).then_some(height.y);
            }
            Ok(found)
        }
        calls::OVERLAP => Err(Fault::Overlap(overlap)),
        _ => Err(Fault::Refused),
    }
}

/// The pairs of places of edges that share a point, each once, in no particular order, where the library wrote them.
///
/// It is exact: nothing is rounded.
///
/// ```
/// use itree::{meetings_all, Edge, Pair};
///
/// let edges = [Edge { x0: 0, y0: 0, x1: 9, y1: 9 }, Edge { x0: 0, y0: 9, x1: 9, y1: 0 }];
/// assert_eq!(meetings_all(&edges).unwrap()[..], [Pair { first: 0, second: 1 }]);
/// ```
pub fn meetings_all(edges: &[Edge]) -> Result<Pairs, Refused> {
    let mut handle = ptr::null_mut();
    // SAFETY: as in `below`.
    let status = unsafe { calls::itree_meetings_all(edges.as_ptr(), edges.len(), &mut handle) };
    pairs_of(status, handle)
}

/// The pairs of places of an edge of the first list and one of the second that share a point, each once, in no particular
/// order, where the library wrote them: `first` is a place of the first list, and `second` one of the second list.
///
/// It is exact: nothing is rounded.
///
/// ```
/// use itree::{meetings_between, Edge, Pair};
///
/// let fences = [Edge { x0: 50, y0: 0, x1: 60, y1: 0 }, Edge { x0: 0, y0: 0, x1: 9, y1: 9 }];
/// let roads = [Edge { x0: 0, y0: 9, x1: 9, y1: 0 }];
/// assert_eq!(meetings_between(&fences, &roads).unwrap()[..], [Pair { first: 1, second: 0 }]);
/// ```
pub fn meetings_between(edges: &[Edge], others: &[Edge]) -> Result<Pairs, Refused> {
    let mut handle = ptr::null_mut();
    // SAFETY: as in `below`.
    let status = unsafe {
        calls::itree_meetings_between(edges.as_ptr(), edges.len(), others.as_ptr(), others.len(), &mut handle)
    };
    pairs_of(status, handle)
}

/// The places `(i, j)`, `i` below `j`, of some two edges that share a point, or `None` where no two do.
///
/// It stops at the first edge of its sweep that meets others before it. It is exact: nothing is rounded.
///
/// ```
/// use itree::{first_meeting, Edge};
///
/// let edges = [Edge { x0: 0, y0: 0, x1: 9, y1: 9 }, Edge { x0: 0, y0: 9, x1: 9, y1: 0 }];
/// assert_eq!(first_meeting(&edges), Ok(Some((0, 1))));
/// assert_eq!(first_meeting(&edges[1..]), Ok(None));
/// ```
pub fn first_meeting(edges: &[Edge]) -> Result<Option<(usize, usize)>, Refused> {
    let (mut first, mut second) = (0, 0);
    // SAFETY: as in `below`.
    let status = unsafe { calls::itree_first_meeting(edges.as_ptr(), edges.len(), &mut first, &mut second) };
    match status {
        calls::ANSWERED => Ok(None),
        calls::MEETING => Ok(Some((first, second))),
        _ => Err(Refused),
    }
}

/// How two edges meet. An edge may be a point.
///
/// It is exact: nothing is rounded. It takes no memory.
///
/// ```
/// use itree::{how_they_meet, Edge, Meeting};
///
/// let rising = Edge { x0: 0, y0: 0, x1: 9, y1: 9 };
/// assert_eq!(how_they_meet(rising, Edge { x0: 0, y0: 9, x1: 9, y1: 0 }), Meeting::Cross);
/// assert_eq!(how_they_meet(rising, Edge { x0: 9, y0: 9, x1: 9, y1: 0 }), Meeting::Touch);
/// ```
pub fn how_they_meet(one: Edge, other: Edge) -> Meeting {
    let mut meeting = calls::APART;
    // SAFETY: each pointer is that of a value of this call.
    unsafe { calls::itree_how_they_meet(&one, &other, &mut meeting) };
    match meeting {
        calls::APART => Meeting::Apart,
        calls::TOUCH => Meeting::Touch,
        calls::CROSS => Meeting::Cross,
        _ => Meeting::Share,
    }
}

/// The handle that a call wrote, where it answered.
fn answered(status: i32, handle: *mut calls::Handle) -> Result<NonNull<calls::Handle>, Refused> {
    NonNull::new(handle)
        .filter(|_| status == calls::ANSWERED)
        .ok_or(Refused)
}

/// The pairs of a handle that a call wrote, where it answered.
fn pairs_of(status: i32, handle: *mut calls::Handle) -> Result<Pairs, Refused> {
    let handle = answered(status, handle)?;
    // SAFETY: the handle was written by a call, and nothing else has it.
    let (first, count) = unsafe {
        (
            calls::itree_pairs_first(handle.as_ptr()),
            calls::itree_pairs_count(handle.as_ptr()),
        )
    };
    Ok(Pairs { handle, first, count })
}

/// The chains of a handle that a call wrote, where it answered.
fn chains_of(status: i32, handle: *mut calls::Handle) -> Result<Chains, Refused> {
    let handle = answered(status, handle)?;
    // SAFETY: the handle was written by a call, and nothing else has it.
    unsafe {
        Ok(Chains {
            points: calls::itree_chains_points(handle.as_ptr()),
            point_count: calls::itree_chains_point_count(handle.as_ptr()),
            offsets: calls::itree_chains_offsets(handle.as_ptr()),
            count: calls::itree_chains_count(handle.as_ptr()),
            handle,
        })
    }
}

/// The pairs `(i, j)`, `i` below `j`, of places of edges that share a point, each once, in no particular order.
///
/// It is `meetings_all`, whose pairs are copied.
pub fn meetings(edges: &[Edge]) -> Result<Vec<(usize, usize)>, Refused> {
    let pairs = meetings_all(edges)?;
    let mut found = Vec::new();
    found.try_reserve_exact(pairs.len())?;
    found.extend(pairs.iter().map(|pair| (pair.first, pair.second)));
    Ok(found)
}

/// The chains that the edges become by snap rounding, one for each edge, in their order, where the library wrote them.
///
/// A point rounds to the whole point that is nearest on each axis, a half upwards. Hot points are all ends of the edges,
/// and what the points round to in which two edges that aren't parallel meet. The chain of an edge is the hot points that
/// some point of the edge rounds to, each once, in the order along it from its one end to its other. So it begins and ends
/// as the edge does; that of an edge that is a point is this point alone. The pieces of the chains, from each point to the
/// next, meet at common ends alone, or are the same. What rounds is told exactly.
///
/// ```
/// use itree::{snap, Edge, Point};
///
/// let edges = [Edge { x0: 0, y0: 0, x1: 3, y1: 1 }, Edge { x0: 0, y0: 1, x1: 3, y1: 0 }];
/// let chains = snap(&edges).unwrap();
/// assert_eq!(chains.chain(0), [Point { x: 0, y: 0 }, Point { x: 2, y: 1 }, Point { x: 3, y: 1 }]);
/// assert_eq!(chains.chain(1), [Point { x: 0, y: 1 }, Point { x: 2, y: 1 }, Point { x: 3, y: 0 }]);
/// ```
pub fn snap(edges: &[Edge]) -> Result<Chains, Refused> {
    let mut handle = ptr::null_mut();
    // SAFETY: as in `below`.
    let status = unsafe { calls::itree_snap(edges.as_ptr(), edges.len(), &mut handle) };
    chains_of(status, handle)
}

/// The chains that the edges become where they are moved only where they must be, one for each edge, in their order, where
/// the library wrote them.
///
/// An edge passes the hot points of its chain of `snap`. Where two edges cross at a point with fractions, what this rounds
/// to moves the edges that pass it and that it doesn't lie on; so does each hot point that a moved edge passes. The chain
/// of a moved edge is that of `snap`. Any other edge stays where it is: its chain is the hot points that lie on it exactly.
/// So where no two edges cross at a point with fractions, none is moved. Each chain begins and ends as its edge does, and
/// the pieces of the chains meet at common ends alone, or are the same.
///
/// ```
/// use itree::{node, snap, Edge, Point};
///
/// // A side passes close by the corner (2, 2).
/// let (top, low, corner) = (Point { x: 0, y: 7 }, Point { x: 2, y: 0 }, Point { x: 2, y: 2 });
/// let side = |one: Point, other: Point| Edge { x0: one.x, y0: one.y, x1: other.x, y1: other.y };
/// let triangle = [side(top, low), side(low, corner), side(corner, top)];
/// assert_eq!(node(&triangle).unwrap().chain(0), [top, low]);
/// assert_eq!(snap(&triangle).unwrap().chain(0), [top, corner, low]);
/// ```
pub fn node(edges: &[Edge]) -> Result<Chains, Refused> {
    let mut handle = ptr::null_mut();
    // SAFETY: as in `below`.
    let status = unsafe { calls::itree_node(edges.as_ptr(), edges.len(), &mut handle) };
    chains_of(status, handle)
}

/// The polygons of what the operation makes of the inside of the subject and that of the clip, where the library wrote
/// them. Both are rings, which are copied; `overlay_rings` reads them where they lie.
///
/// A ring goes from each of its points to the next one, and from the last to the first. It may end with its first point
/// again, run either way, and have one point or none. Rings may cross, touch and lie along each other and themselves, and
/// stand there more than once. The rule says which points are inside.
///
/// The polygons wind once around each point of the result, and not at all around any other, if each edge of the rings given
/// isn't moved, or runs along an axis, or isn't within half a unit, on both axes, of the point. Around no point do they wind
/// more often. Only such edges are moved as pass what two edges cross at, a point with fractions that is rounded, or what a
/// moved edge passes; so valid polygons keep their region. The rings visit no point twice, and have no points on straight
/// lines: with these, edges of rings meet only at common ends, so a corner may touch the side of a ring.
///
/// ```
/// use itree::{overlay, FillRule, Operation, Point};
///
/// let ring = |corners: [(i32, i32); 4]| corners.map(|(x, y)| Point { x, y });
/// let (field, pond) = (ring([(0, 0), (9, 0), (9, 9), (0, 9)]), ring([(3, 3), (6, 3), (6, 6), (3, 6)]));
/// let polygons = overlay(&[field], &[pond], Operation::Difference, FillRule::NonZero).unwrap();
/// for polygon in &polygons {
///     assert_eq!((polygon.outer().len(), polygon.holes().len()), (4, 1));
/// }
/// assert_eq!(polygons.len(), 1);
/// ```
pub fn overlay<S: AsRef<[Point]>, C: AsRef<[Point]>>(
    subject: &[S],
    clip: &[C],
    operation: Operation,
    rule: FillRule,
) -> Result<Polygons, Refused> {
    let (subject_points, subject_ends) = side_by_side(subject)?;
    let (clip_points, clip_ends) = side_by_side(clip)?;
    let subject = Rings {
        points: &subject_points,
        ends: &subject_ends,
    };
    let clip = Rings {
        points: &clip_points,
        ends: &clip_ends,
    };
    overlay_rings(subject, clip, operation, rule).map_err(|_| Refused)
}

/// The polygons of what is inside of the rings by the rule: the union of them with nothing. So of rings that cross
/// themselves polygons are made whose edges don't cross.
///
/// ```
/// use itree::{simplify, FillRule, Point};
///
/// let bow_tie = [(0, 0), (3, 1), (3, 0), (0, 1)].map(|(x, y)| Point { x, y });
/// assert_eq!(simplify(&[bow_tie], FillRule::EvenOdd).unwrap().len(), 2);
/// ```
pub fn simplify<R: AsRef<[Point]>>(rings: &[R], rule: FillRule) -> Result<Polygons, Refused> {
    overlay(rings, &[[]; 0], Operation::Union, rule)
}

/// As `overlay`, of rings that are read where they lie, as those of `Polygons::rings`. It is refused too where a ring stops
/// before it begins or behind the points: `OverlayFault::Lengths`.
///
/// ```
/// use itree::{overlay_rings, FillRule, Operation, Point, Rings};
///
/// let points = [(0, 0), (2, 0), (2, 2), (0, 2)].map(|(x, y)| Point { x, y });
/// let square = Rings { points: &points, ends: &[4] };
/// let polygons = overlay_rings(square, Rings::default(), Operation::Union, FillRule::NonZero).unwrap();
/// assert_eq!(polygons.points().len(), 4);
/// ```
pub fn overlay_rings(
    subject: Rings<'_>,
    clip: Rings<'_>,
    operation: Operation,
    rule: FillRule,
) -> Result<Polygons, OverlayFault> {
    let mut handle = ptr::null_mut();
    // SAFETY: as in `below`.
    let status = unsafe {
        calls::itree_overlay(
            subject.points.as_ptr(),
            subject.points.len(),
            subject.ends.as_ptr(),
            subject.ends.len(),
            clip.points.as_ptr(),
            clip.points.len(),
            clip.ends.as_ptr(),
            clip.ends.len(),
            rule as i32,
            operation as i32,
            &mut handle,
        )
    };
    if status == calls::LENGTHS {
        return Err(OverlayFault::Lengths);
    }
    let handle = answered(status, handle).map_err(|_| OverlayFault::Refused)?;
    Ok(polygons_of(handle))
}

/// The polygons of a handle that a call wrote.
fn polygons_of(handle: NonNull<calls::Handle>) -> Polygons {
    let (mut points, mut ring_offsets, mut polygon_offsets) = (ptr::null(), ptr::null(), ptr::null());
    // SAFETY: the handle was written by a call, and nothing else has it.
    let (point_count, ring_offset_count, polygon_offset_count) = unsafe {
        (
            calls::itree_polygons_points(handle.as_ptr(), &mut points),
            calls::itree_polygons_ring_offsets(handle.as_ptr(), &mut ring_offsets),
            calls::itree_polygons_polygon_offsets(handle.as_ptr(), &mut polygon_offsets),
        )
    };
    Polygons {
        handle,
        points,
        point_count,
        ring_offsets,
        ring_offset_count,
        polygon_offsets,
        polygon_offset_count,
    }
}

/// The points of all rings, one ring after the other, and where each stops.
fn side_by_side<R: AsRef<[Point]>>(rings: &[R]) -> Result<(Vec<Point>, Vec<usize>), TryReserveError> {
    let (mut points, mut ends) = (Vec::new(), Vec::new());
    points.try_reserve_exact(rings.iter().map(|ring| ring.as_ref().len()).sum())?;
    ends.try_reserve_exact(rings.len())?;
    for ring in rings {
        points.extend_from_slice(ring.as_ref());
        ends.push(points.len());
    }
    Ok((points, ends))
}

/// For each point, in order, the place of the edge straight below it, if there is one.
///
/// An edge covers the x's from its lesser end up to its greater, which it doesn't cover; an upright edge or a point
/// covers nothing. An edge is under a point where it covers the point's x at a height that is at most the point's, and
/// straight below it where none that is under it is higher there. Of edges that are as high there, it is the one that is
/// highest just right of the point; of edges along one line any may be told.
///
/// Two edges cross where the one is below the other at some whole x that both reach, and above it at another: then the
/// answer is `LocateFault::Cross`. It may be `LocateFault::Refused` in that case too, where there is little memory. An
/// upright edge crosses none, though it goes through another: it is never told, but by `meetings`. It is exact: nothing
/// is rounded.
pub fn locate(edges: &[Edge], points: &[Point]) -> Result<Vec<Option<usize>>, LocateFault> {
    let mut places = items(points.len(), calls::Place { found: 0, place: 0 })?;
    let (mut first, mut second) = (0, 0);
    // SAFETY: as in `below`.
    let status = unsafe {
        calls::itree_locate(
            edges.as_ptr(),
            edges.len(),
            points.as_ptr(),
            points.len(),
            places.as_mut_ptr(),
            places.len(),
            &mut first,
            &mut second,
        )
    };
    match status {
        calls::ANSWERED => {
            let mut found = items(points.len(), None)?;
            for (answer, place) in found.iter_mut().zip(&places) {
                *answer = (place.found != 0).then_some(place.place);
            }
            Ok(found)
        }
        calls::CROSSING => Err(LocateFault::Cross(first, second)),
        _ => Err(LocateFault::Refused),
    }
}

/// So many of one item. Refused memory is an error here, and doesn't end the program.
fn items<T: Clone>(count: usize, item: T) -> Result<Vec<T>, TryReserveError> {
    let mut items = Vec::new();
    items.try_reserve_exact(count)?;
    items.resize(count, item);
    Ok(items)
}
