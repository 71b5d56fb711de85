//! Doubles as whole numbers of 32 bits, and back.

use crate::{calls, items, overlay_rings, FillRule, Operation, Point, Polygons, Refused, Rings, REFUSED};
use std::collections::TryReserveError;
use std::error::Error;
use std::fmt::{self, Display, Formatter};

/// Where something is: two doubles.
#[repr(C)]
#[derive(Clone, Copy, Debug, Default, PartialEq, PartialOrd)]
pub struct Position {
    /// How far it lies along the first axis.
    pub x: f64,
    /// How far it lies along the second axis.
    pub y: f64,
}

impl From<(f64, f64)> for Position {
    fn from((x, y): (f64, f64)) -> Position {
        Position { x, y }
    }
}

impl From<[f64; 2]> for Position {
    fn from([x, y]: [f64; 2]) -> Position {
        Position { x, y }
    }
}

impl From<Position> for (f64, f64) {
    fn from(position: Position) -> (f64, f64) {
        (position.x, position.y)
    }
}

impl From<Position> for [f64; 2] {
    fn from(position: Position) -> [f64; 2] {
        [position.x, position.y]
    }
}

/// Why positions have no points of a grid, or no grid.
#[derive(Clone, Copy, Debug, PartialEq, Eq, Hash)]
pub enum GridFault {
    /// Memory was refused, or the call was stopped.
    Refused,
    /// The position at this place, counted over all rings, isn't finite or is off the grid.
    Position(usize),
    /// The positions lie too far apart for a grid.
    TooFar,
    /// The numbers are those of no grid.
    NoGrid,
}

impl Display for GridFault {
    fn fmt(&self, f: &mut Formatter<'_>) -> fmt::Result {
        match self {
            GridFault::Refused => write!(f, "{REFUSED}"),
            GridFault::Position(place) => write!(f, "the position at place {place} isn't finite or is off the grid"),
            GridFault::TooFar => write!(f, "the positions lie too far apart for a grid"),
            GridFault::NoGrid => write!(f, "there is no such grid"),
        }
    }
}

impl Error for GridFault {}

impl From<TryReserveError> for GridFault {
    fn from(_refused: TryReserveError) -> GridFault {
        GridFault::Refused
    }
}

impl From<Refused> for GridFault {
    fn from(_refused: Refused) -> GridFault {
        GridFault::Refused
    }
}

/// A grid, by which positions become points, and points positions again, which is exact. The point (n, m) of a grid is the
/// position ((n + x) * unit, (m + y) * unit), where the unit is a power of two and (x, y) is the grid's origin in units.
///
/// ```
/// use itree::{Grid, Point, Position};
///
/// let grid = Grid::new(400, 200, -2).unwrap();
/// assert_eq!(grid.unit(), 0.25);
/// assert_eq!(grid.round((100.8, 49.4)), Ok(Point { x: 3, y: -2 }));
/// assert_eq!(grid.position(Point { x: 3, y: -2 }), Position { x: 100.75, y: 49.5 });
/// ```
#[repr(C)]
#[derive(Clone, Copy, Debug, Default, PartialEq, Eq, Hash)]
pub struct Grid {
    x: i64,
    y: i64,
    exponent: i32,
}

impl Grid {
    /// The grid with this origin, in units, and the unit 2 to the power of the exponent. `GridFault::NoGrid` where the
    /// exponent isn't from -1022 to 970, or a number of the origin is further than 2^53 - 2^31 from 0.
    pub fn new(x: i64, y: i64, exponent: i32) -> Result<Grid, GridFault> {
        let grid = Grid { x, y, exponent };
        // SAFETY: each pointer and length are those of a slice.
        let status = unsafe { calls::itree_grid_positions(&grid, [].as_ptr(), 0, [].as_mut_ptr(), 0) };
        (status == calls::ANSWERED).then_some(grid).ok_or(GridFault::NoGrid)
    }

    /// The grid of the finest unit by which all positions lie within 2^30 units of its origin, which is their middle.
    ///
    /// The unit isn't finer than doubles lie apart at the greatest coordinate. Two shapes have one grid by a pair:
    /// `Grid::fit(&(&subject, &clip))`. It is `GridFault::Position` where one isn't finite, and `GridFault::TooFar` where
    /// they are too far apart.
    pub fn fit<R: ToRings + ?Sized>(rings: &R) -> Result<Grid, GridFault> {
        let mut all = PositionRings::default();
        rings.add_to(&mut all)?;
        let (mut grid, mut fault) = (Grid::default(), 0);
        // SAFETY: each pointer and length are those of a slice, and those that are written are of values of this call.
        let status =
            unsafe { calls::itree_grid_fit(all.positions.as_ptr(), all.positions.len(), &mut grid, &mut fault) };
        match status {
            calls::ANSWERED => Ok(grid),
            _ if fault < all.positions.len() => Err(GridFault::Position(fault)),
            _ => Err(GridFault::TooFar),
        }
    }

    /// The origin in units, and the power of two that is the unit.
    pub fn numbers(&self) -> (i64, i64, i32) {
        (self.x, self.y, self.exponent)
    }

    /// How far the lines of the grid lie apart.
    pub fn unit(&self) -> f64 {
        2f64.powi(self.exponent)
    }

    /// The point that is nearest to a position on each axis. `GridFault::Position(0)` where there is none.
    pub fn round(&self, position: impl Into<Position>) -> Result<Point, GridFault> {
        let mut point = [Point::default()];
        self.round_into(&[position.into()], &mut point)?;
        Ok(point[0])
    }

    /// The points that are nearest to positions, in order. `GridFault::Position` tells the first that has none.
    pub fn round_all(&self, positions: &[Position]) -> Result<Vec<Point>, GridFault> {
        let mut points = items(positions.len(), Point::default())?;
        self.round_into(positions, &mut points)?;
        Ok(points)
    }

    /// The position of a point of the grid.
    pub fn position(&self, point: Point) -> Position {
        let mut position = [Position::default()];
        self.positions_into(&[point], &mut position);
        position[0]
    }

    /// The positions of points of the grid, in order.
    pub fn positions(&self, points: &[Point]) -> Result<Vec<Position>, Refused> {
        let mut positions = items(points.len(), Position::default())?;
        self.positions_into(points, &mut positions);
        Ok(positions)
    }

    fn round_into(&self, positions: &[Position], points: &mut [Point]) -> Result<(), GridFault> {
        let mut fault = 0;
        // SAFETY: as in `fit`.
        let status = unsafe {
            calls::itree_grid_round(
                self,
                positions.as_ptr(),
                positions.len(),
                points.as_mut_ptr(),
                points.len(),
                &mut fault,
            )
        };
        (status == calls::ANSWERED)
            .then_some(())
            .ok_or(GridFault::Position(fault))
    }

    /// There are as many positions as points, and this is a grid, so each is written.
    fn positions_into(&self, points: &[Point], positions: &mut [Position]) {
        // SAFETY: as in `fit`.
        unsafe {
            calls::itree_grid_positions(
                self,
                points.as_ptr(),
                points.len(),
                positions.as_mut_ptr(),
                positions.len(),
            )
        };
    }
}

/// Which way a ring is turned once it was rounded.
#[derive(Clone, Copy, Debug, PartialEq)]
enum Turn {
    Stays,
    Counterclockwise,
    Clockwise,
}

/// Rings of positions, which a `ToRings` adds.
#[derive(Clone, Debug, Default)]
pub struct PositionRings {
    positions: Vec<Position>,
    ends: Vec<(usize, Turn)>,
}

impl PositionRings {
    /// Adds a ring, which runs as it is.
    pub fn push_ring<P: Into<Position>>(&mut self, ring: impl IntoIterator<Item = P>) -> Result<(), Refused> {
        self.push(ring, Turn::Stays)
    }

    /// Adds a ring that bounds a polygon from outside: it is turned counterclockwise where it isn't.
    pub fn push_outer<P: Into<Position>>(&mut self, ring: impl IntoIterator<Item = P>) -> Result<(), Refused> {
        self.push(ring, Turn::Counterclockwise)
    }

    /// Adds a hole of a polygon: it is turned clockwise where it isn't.
    pub fn push_hole<P: Into<Position>>(&mut self, ring: impl IntoIterator<Item = P>) -> Result<(), Refused> {
        self.push(ring, Turn::Clockwise)
    }

    fn push<P: Into<Position>>(&mut self, ring: impl IntoIterator<Item = P>, turn: Turn) -> Result<(), Refused> {
        for position in ring {
            self.positions.try_reserve(1)?;
            self.positions.push(position.into());
        }
        self.ends.try_reserve(1)?;
        self.ends.push((self.positions.len(), turn));
        Ok(())
    }

    /// How many rings there are.
    pub(crate) fn len(&self) -> usize {
        self.ends.len()
    }

    /// The rings on the grid: their points, and where each stops.
    pub(crate) fn rounded(&self, grid: &Grid) -> Result<(Vec<Point>, Vec<usize>), GridFault> {
        let mut points = grid.round_all(&self.positions)?;
        let mut ends = Vec::new();
        ends.try_reserve_exact(self.ends.len())?;
        let mut start = 0;
        for (end, turn) in &self.ends {
            turn_round(&mut points[start..*end], *turn);
            ends.push(*end);
            start = *end;
        }
        Ok((points, ends))
    }
}

/// Turns the ring round where it runs the wrong way.
fn turn_round(ring: &mut [Point], turn: Turn) {
    let is_wrong = match turn {
        Turn::Stays => false,
        Turn::Counterclockwise => twice_area(ring) < 0,
        Turn::Clockwise => twice_area(ring) > 0,
    };
    if is_wrong {
        ring.reverse();
    }
}

/// Twice the area that a ring goes round counterclockwise, less what it goes round clockwise.
fn twice_area(ring: &[Point]) -> i128 {
    let product = |(one, other): (&Point, &Point)| {
        i128::from(one.x) * i128::from(other.y) - i128::from(other.x) * i128::from(one.y)
    };
    ring.iter().zip(ring.iter().cycle().skip(1)).map(product).sum()
}

/// What has rings of positions. A slice, an array or a vector of `Position`, of `(f64, f64)` or of `[f64; 2]` is a ring; a
/// slice, an array, a vector or a pair of what has rings has all of theirs.
///
/// A shape of another crate has them by a type of one's own, as one of geo-types:
///
/// ```
/// # mod geo_types {
/// #     pub struct Coord { pub x: f64, pub y: f64 }
/// #     pub struct LineString(pub Vec<Coord>);
/// #     impl LineString { pub fn coords(&self) -> impl Iterator<Item = &Coord> { self.0.iter() } }
/// #     pub struct Polygon(pub LineString, pub Vec<LineString>);
/// #     impl Polygon {
/// #         pub fn exterior(&self) -> &LineString { &self.0 }
/// #         pub fn interiors(&self) -> &[LineString] { &self.1 }
/// #     }
/// # }
/// use itree::{overlay_on, FillRule, Grid, Operation, PositionRings, Refused, ToRings};
///
/// struct Shape<'a>(&'a geo_types::Polygon);
///
/// impl ToRings for Shape<'_> {
///     fn add_to(&self, rings: &mut PositionRings) -> Result<(), Refused> {
///         rings.push_outer(self.0.exterior().coords().map(|at| (at.x, at.y)))?;
///         let mut holes = self.0.interiors().iter();
///         holes.try_for_each(|hole| rings.push_hole(hole.coords().map(|at| (at.x, at.y))))
///     }
/// }
/// # let line = |all: &[(f64, f64)]| geo_types::LineString(all.iter().map(|&(x, y)| geo_types::Coord { x, y }).collect());
/// # let field = geo_types::Polygon(line(&[(0.0, 0.0), (9.0, 0.0), (9.0, 9.0)]), vec![line(&[(5.0, 1.0), (6.0, 1.0), (6.0, 2.0)])]);
///
/// let pond = [(3.0, 0.5), (4.0, 0.5), (4.0, 1.5)];
/// let grid = Grid::fit(&(Shape(&field), &pond)).unwrap();
/// let polygons = overlay_on(&grid, &Shape(&field), &pond, Operation::Difference, FillRule::NonZero).unwrap();
/// assert_eq!(polygons.polygon(0).holes().len(), 2);
/// ```
pub trait ToRings {
    /// Adds the rings, and hands on the refusal of memory.
    fn add_to(&self, rings: &mut PositionRings) -> Result<(), Refused>;
}

impl<R: ToRings + ?Sized> ToRings for &R {
    fn add_to(&self, rings: &mut PositionRings) -> Result<(), Refused> {
        (**self).add_to(rings)
    }
}

impl<R: ToRings> ToRings for [R] {
    fn add_to(&self, rings: &mut PositionRings) -> Result<(), Refused> {
        self.iter().try_for_each(|it| it.add_to(rings))
    }
}

impl<One: ToRings, Other: ToRings> ToRings for (One, Other) {
    fn add_to(&self, rings: &mut PositionRings) -> Result<(), Refused> {
        self.0.add_to(rings)?;
        self.1.add_to(rings)
    }
}

impl ToRings for [Position] {
    fn add_to(&self, rings: &mut PositionRings) -> Result<(), Refused> {
        rings.push_ring(self.iter().copied())
    }
}

impl ToRings for [(f64, f64)] {
    fn add_to(&self, rings: &mut PositionRings) -> Result<(), Refused> {
        rings.push_ring(self.iter().copied())
    }
}

impl ToRings for [[f64; 2]] {
    fn add_to(&self, rings: &mut PositionRings) -> Result<(), Refused> {
        rings.push_ring(self.iter().copied())
    }
}

impl<T> ToRings for Vec<T>
where
    [T]: ToRings,
{
    fn add_to(&self, rings: &mut PositionRings) -> Result<(), Refused> {
        self[..].add_to(rings)
    }
}

impl<T, const COUNT: usize> ToRings for [T; COUNT]
where
    [T]: ToRings,
{
    fn add_to(&self, rings: &mut PositionRings) -> Result<(), Refused> {
        self[..].add_to(rings)
    }
}

/// As `overlay`, of rings of positions that are first rounded to the grid. Its polygons are points of the grid:
/// `grid.positions(polygon.outer())` are positions.
///
/// `GridFault::Position` tells the first position of the subject, or else of the clip, that isn't finite or is off the
/// grid.
///
/// ```
/// use itree::{overlay_on, FillRule, Grid, Operation};
///
/// let field = [[0.0, 0.0], [1.5, 0.0], [1.5, 1.5], [0.0, 1.5]];
/// let pond = [(0.5, 0.5), (0.75, 0.5), (0.75, 0.75), (0.5, 0.75)];
/// let grid = Grid::fit(&(&field, &pond)).unwrap();
/// let polygons = overlay_on(&grid, &field, &pond, Operation::Difference, FillRule::NonZero).unwrap();
/// let hole = polygons.polygon(0).holes().next().unwrap();
/// assert!(grid.positions(hole).unwrap().contains(&(0.75, 0.75).into()));
/// ```
pub fn overlay_on<S: ToRings + ?Sized, C: ToRings + ?Sized>(
    grid: &Grid,
    subject: &S,
    clip: &C,
    operation: Operation,
    rule: FillRule,
) -> Result<Polygons, GridFault> {
    let (subject_points, subject_ends) = rounded(grid, subject)?;
    let (clip_points, clip_ends) = rounded(grid, clip)?;
    let subject = Rings {
        points: &subject_points,
        ends: &subject_ends,
    };
    let clip = Rings {
        points: &clip_points,
        ends: &clip_ends,
    };
    overlay_rings(subject, clip, operation, rule).map_err(|_| GridFault::Refused)
}

/// As `simplify`, of rings of positions that are first rounded to the grid.
pub fn simplify_on<R: ToRings + ?Sized>(grid: &Grid, rings: &R, rule: FillRule) -> Result<Polygons, GridFault> {
    let (points, ends) = rounded(grid, rings)?;
    let rings = Rings {
        points: &points,
        ends: &ends,
    };
    overlay_rings(rings, Rings::default(), Operation::Union, rule).map_err(|_| GridFault::Refused)
}

/// The rings on the grid: their points, and where each stops.
pub(crate) fn rounded<R: ToRings + ?Sized>(grid: &Grid, rings: &R) -> Result<(Vec<Point>, Vec<usize>), GridFault> {
    let mut all = PositionRings::default();
    rings.add_to(&mut all)?;
    all.rounded(grid)
}
