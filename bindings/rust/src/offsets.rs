//! Polygons that grow and shrink, and lines that grow.

use crate::{answered, calls, polygons_of, FillRule, Lines, Point, Polygons, Refused, Rings, REFUSED};
use std::collections::TryReserveError;
use std::error::Error;
use std::fmt::{self, Display, Formatter};
use std::ptr;

/// Why polygons don't grow or shrink, or lines don't grow.
#[derive(Clone, Copy, Debug, PartialEq, Eq, Hash)]
pub enum MinkowskiFault {
    /// Memory was refused, or the call was stopped.
    Refused,
    /// A ring, or a line, stops before it begins, or behind the points.
    Lengths,
    /// The shape isn't convex around the origin.
    Shape,
    /// What grows or shrinks leaves 32 bits.
    Range,
}

impl Display for MinkowskiFault {
    fn fmt(&self, f: &mut Formatter<'_>) -> fmt::Result {
        match self {
            MinkowskiFault::Refused => write!(f, "{REFUSED}"),
            MinkowskiFault::Lengths => write!(f, "a ring stops before it begins, or behind the points"),
            MinkowskiFault::Shape => write!(f, "a shape to grow or shrink by isn't convex around the origin"),
            MinkowskiFault::Range => write!(f, "what grows or shrinks leaves 32 bits"),
        }
    }
}

impl Error for MinkowskiFault {}

impl From<Refused> for MinkowskiFault {
    fn from(_refused: Refused) -> MinkowskiFault {
        MinkowskiFault::Refused
    }
}

/// The polygons of the Minkowski sum of what is inside of the rings and a shape: of the points that one of the inside and one of
/// the shape add up to. So what is inside grows by the shape on all sides; parts that come to touch become one, and holes that are
/// small close.
///
/// The shape is the corners of a convex polygon with the origin inside, counterclockwise: at each corner it turns left, none stands
/// there twice, and the origin lies left of each side.
///
/// What is inside is bounded by rings first, as those of `overlay_rings` of it and nothing: exactly where it moves no edge. Of what
/// these bound the polygons wind once around each point of the sum, and not at all around any other, if each edge of the curve
/// around the sum isn't moved, or runs along an axis, or isn't within half a unit, on both axes, of the point, and none goes through
/// it. Around no point do they wind more often. The curve is each edge of those rings, moved by the corner of the shape that lies
/// furthest to the right of it, and what joins these at corners: around one that turns left the sides of the shape, and at one that
/// turns right the ways to the corner itself and on, or nothing where the same corner of the shape moves both edges.
///
/// `MinkowskiFault::Lengths` comes where a ring stops before it begins or behind the points; else `MinkowskiFault::Shape`, where the
/// shape isn't such a polygon; else `MinkowskiFault::Range`, where a corner of the curve is no point of 32 bits.
///
/// ```
/// use itree::{minkowski, FillRule, Point, Rings};
///
/// let points = [(0, 0), (9, 0), (9, 9), (0, 9)].map(Point::from);
/// let field = Rings { points: &points, ends: &[4] };
/// let shape = [(-2, -2), (2, -2), (2, 2), (-2, 2)].map(Point::from);
/// let wider = minkowski(field, &shape, FillRule::NonZero).unwrap();
/// assert_eq!(wider.polygon(0).outer(), [(-2, -2), (11, -2), (11, 11), (-2, 11)].map(Point::from));
/// ```
pub fn minkowski(rings: Rings<'_>, shape: &[Point], rule: FillRule) -> Result<Polygons, MinkowskiFault> {
    let mut handle = ptr::null_mut();
    // SAFETY: each pointer and length are those of a slice, and the last is of a value of this call.
    let status = unsafe {
        calls::itree_minkowski(
            rings.points.as_ptr(),
            rings.points.len(),
            rings.ends.as_ptr(),
            rings.ends.len(),
            shape.as_ptr(),
            shape.len(),
            rule as i32,
            &mut handle,
        )
    };
    made_by(status, handle)
}

/// How a corner that turns left is joined where polygons grow. One that turns right needs no join.
#[derive(Clone, Copy, Debug, PartialEq, Eq, Hash)]
pub enum Join {
    /// By the sides of the shape there, as `minkowski` joins it: round where the shape is a circle.
    Round,
    /// By one straight line between the ends of the moved edges.
    Bevel,
    /// By the moved edges, carried on to where they cross. It stays round where that is farther out than the shape would reach if it
    /// were so many hundredths of its size: 200 is twice as large.
    Mitre(u32),
}

impl Join {
    /// The number of the join, and the limit of a mitre.
    fn numbers(self) -> (i32, u32) {
        match self {
            Join::Round => (0, 0),
            Join::Bevel => (1, 0),
            Join::Mitre(limit) => (2, limit),
        }
    }
}

/// The polygons that what is inside of the rings becomes when it grows by a shape, with corners joined so.
///
/// Rings and shape are as `minkowski` takes them, and the curve is that of it but at corners that turn left. Bevelled, one straight
/// line stands there in place of the sides of the shape, from the corner of the shape that moves the one edge to that which moves the
/// next, where the origin lies left of that line. Mitred, the triangle of these two corners and of the tip comes to the curve, where
/// the tip lies to the right of the line and within the limit. The tip is where the moved edges cross, rounded to a whole point.
///
/// The polygons wind once around each point that the curve winds around, and not at all around any other, as those of `minkowski` do.
/// The faults are those of `minkowski`, in the same order; `MinkowskiFault::Range` comes also where the tip of a mitre is no point of
/// 32 bits.
///
/// ```
/// use itree::{minkowski_joined, FillRule, Join, Point, Rings};
///
/// let points = [(0, 0), (9, 0), (9, 9), (0, 9)].map(Point::from);
/// let field = Rings { points: &points, ends: &[4] };
/// let shape = [(2, 0), (0, 2), (-2, 0), (0, -2)].map(Point::from);
/// let wider = minkowski_joined(field, &shape, FillRule::NonZero, Join::Mitre(500)).unwrap();
/// assert_eq!(wider.polygon(0).outer(), [(-2, -2), (11, -2), (11, 11), (-2, 11)].map(Point::from));
/// ```
pub fn minkowski_joined(
    rings: Rings<'_>,
    shape: &[Point],
    rule: FillRule,
    join: Join,
) -> Result<Polygons, MinkowskiFault> {
    let mut handle = ptr::null_mut();
    let (number, limit) = join.numbers();
    // SAFETY: each pointer and length are those of a slice, and the last is of a value of this call.
    let status = unsafe {
        calls::itree_minkowski_joined(
            rings.points.as_ptr(),
            rings.points.len(),
            rings.ends.as_ptr(),
            rings.ends.len(),
            shape.as_ptr(),
            shape.len(),
            rule as i32,
            number,
            limit,
            &mut handle,
        )
    };
    made_by(status, handle)
}

/// The polygons of what is left of the inside of the rings where a shape is taken along outside: of each point from which the whole
/// shape lies inside. So what is inside shrinks by the shape on all sides; narrow parts go, polygons come apart there, and holes
/// become larger.
///
/// Rings and shape are as `minkowski` takes them. The polygons wind once around each point that is left, and not at all around any
/// other, as those of `minkowski` do of the sum: the curve is that of what bounds the inside, the other way round, and of the shape
/// turned by half a turn.
///
/// The faults are those of `minkowski`, in the same order; `MinkowskiFault::Range` comes where a corner of that curve, or of the
/// shape turned, is no point of 32 bits.
///
/// ```
/// use itree::{erode, FillRule, Point, Rings};
///
/// let points = [(0, 0), (9, 0), (9, 9), (0, 9)].map(Point::from);
/// let field = Rings { points: &points, ends: &[4] };
/// let shape = [(-2, -2), (2, -2), (2, 2), (-2, 2)].map(Point::from);
/// let within = erode(field, &shape, FillRule::NonZero).unwrap();
/// assert_eq!(within.polygon(0).outer(), [(2, 2), (7, 2), (7, 7), (2, 7)].map(Point::from));
/// ```
pub fn erode(rings: Rings<'_>, shape: &[Point], rule: FillRule) -> Result<Polygons, MinkowskiFault> {
    let mut handle = ptr::null_mut();
    // SAFETY: each pointer and length are those of a slice, and the last is of a value of this call.
    let status = unsafe {
        calls::itree_erode(
            rings.points.as_ptr(),
            rings.points.len(),
            rings.ends.as_ptr(),
            rings.ends.len(),
            shape.as_ptr(),
            shape.len(),
            rule as i32,
            &mut handle,
        )
    };
    made_by(status, handle)
}

/// The polygons of the Minkowski sum of lines and a shape: of the points that one of a line and one of the shape add up to. So lines
/// become as wide as the shape is, and their ends take its form; lines that come to touch become one.
///
/// A line of one point becomes the shape there, and one of none nothing. The shape is as `minkowski` takes it. The polygons wind once
/// around each point of the sum, and not at all around any other, as those of `minkowski` do: in place of the curve there are the
/// shape at each point of a line, and along each edge the parallelogram between the edge moved by the corner of the shape that lies
/// furthest to the right of it, and the edge moved by that furthest to the left.
///
/// The faults are those of `minkowski`, in the same order: `MinkowskiFault::Lengths` where a line stops before it begins or behind
/// the points, and `MinkowskiFault::Range` where a corner of such a shape or parallelogram is no point of 32 bits.
///
/// ```
/// use itree::{grow_lines, Lines, Point};
///
/// let points = [(0, 0), (9, 0)].map(Point::from);
/// let road = Lines { points: &points, ends: &[2] };
/// let shape = [(-2, -2), (2, -2), (2, 2), (-2, 2)].map(Point::from);
/// let wide = grow_lines(road, &shape).unwrap();
/// assert_eq!(wide.polygon(0).outer(), [(-2, -2), (11, -2), (11, 2), (-2, 2)].map(Point::from));
/// ```
pub fn grow_lines(lines: Lines<'_>, shape: &[Point]) -> Result<Polygons, MinkowskiFault> {
    let mut handle = ptr::null_mut();
    // SAFETY: each pointer and length are those of a slice, and the last is of a value of this call.
    let status = unsafe {
        calls::itree_grow_lines(
            lines.points.as_ptr(),
            lines.points.len(),
            lines.ends.as_ptr(),
            lines.ends.len(),
            shape.as_ptr(),
            shape.len(),
            &mut handle,
        )
    };
    made_by(status, handle)
}

/// What the status and the handle of polygons that grow or shrink, or of lines that grow, tell.
fn made_by(status: i32, handle: *mut calls::Handle) -> Result<Polygons, MinkowskiFault> {
    match status {
        calls::LENGTHS => Err(MinkowskiFault::Lengths),
        calls::SHAPE => Err(MinkowskiFault::Shape),
        calls::RANGE => Err(MinkowskiFault::Range),
        _ => Ok(answered(status, handle).map(polygons_of)?),
    }
}

/// Why there is no circle.
#[derive(Clone, Copy, Debug, PartialEq, Eq, Hash)]
pub enum CircleFault {
    /// Memory was refused, or the call was stopped.
    Refused,
    /// The radius is below 1, or there may be fewer corners than 4.
    Few,
}

impl Display for CircleFault {
    fn fmt(&self, f: &mut Formatter<'_>) -> fmt::Result {
        match self {
            CircleFault::Refused => write!(f, "{REFUSED}"),
            CircleFault::Few => write!(f, "a radius below 1, or fewer corners than 4"),
        }
    }
}

impl Error for CircleFault {}

impl From<TryReserveError> for CircleFault {
    fn from(_refused: TryReserveError) -> CircleFault {
        CircleFault::Refused
    }
}

/// A convex polygon around the origin that stands for a circle.
#[derive(Clone, Debug, PartialEq, Eq)]
pub struct Circle {
    /// Its corners, counterclockwise. None is farther from the origin than the radius.
    pub corners: Vec<Point>,
    /// No side is nearer to the origin: the greatest such whole number up to the radius.
    pub inner: i32,
}

/// A circle of a radius around the origin, with so many corners at most: 8, 16, 24 or more, up to 8,192, as far as `most` allows,
/// and no more than eight times the root of a sixth of the radius; below 8, or where the radius is below 6, it is a diamond.
///
/// `CircleFault::Few` comes where the radius is below 1 or `most` below 4.
///
/// ```
/// use itree::{circle, minkowski, FillRule, Point, Rings};
///
/// let points = [(0, 0), (900, 0), (900, 900), (0, 900)].map(Point::from);
/// let field = Rings { points: &points, ends: &[4] };
/// let round = circle(100, 64).unwrap();
/// let wider = minkowski(field, &round.corners, FillRule::NonZero).unwrap();
/// assert!(wider.points().iter().all(|point| -100 <= point.x && point.x <= 1000));
/// ```
pub fn circle(radius: i32, most: usize) -> Result<Circle, CircleFault> {
    let (mut count, mut inner) = (0, 0);
    // SAFETY: no room is told, and the others are of values of this call.
    let status = unsafe { calls::itree_circle(radius, most, ptr::null_mut(), 0, &mut count, &mut inner) };
    made(status)?;
    let mut corners = Vec::new();
    corners.try_reserve_exact(count)?;
    corners.resize(count, Point::default());
    // SAFETY: the pointer and the length are those of a vector, and the others are of values of this call.
    let status = unsafe { calls::itree_circle(radius, most, corners.as_mut_ptr(), count, &mut count, &mut inner) };
    made(status)?;
    Ok(Circle { corners, inner })
}

/// What the status of a circle tells.
fn made(status: i32) -> Result<(), CircleFault> {
    match status {
        calls::ANSWERED => Ok(()),
        calls::CHOICE => Err(CircleFault::Few),
        _ => Err(CircleFault::Refused),
    }
}
