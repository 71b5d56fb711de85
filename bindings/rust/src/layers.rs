//! Many shapes at once: overlays of pairs and of groups, pairs that an overlay has to look at, points in shapes, lines that
//! are clipped, and which polygon lies in whose hole.

use crate::{
    answered, calls, grid, items, pairs_of, polygons_of, rings_at, side_by_side, FillRule, Grid, GridFault, Operation,
    Pair, Pairs, Point, Polygons, PolygonsIter, PositionRings, Refused, Rings, Shapes, ToRings, REFUSED,
};
use std::collections::TryReserveError;
use std::error::Error;
use std::fmt::{self, Debug, Display, Formatter};
use std::ops::Range;
use std::ptr;

/// Shapes, each some rings, as a polygon with its holes: the points of all rings, one ring after the other; where each ring
/// stops among these; and where each shape stops among the rings, both as the ends of [`crate::Rings`]. Points behind the
/// last ring and rings behind the last shape are of no shape.
///
/// `Polygons`, `Shapes` and a `LayerBuf` are such shapes, by a reference to them.
#[derive(Clone, Copy, Debug, Default, PartialEq, Eq)]
pub struct Layer<'a> {
    /// The points of all rings.
    pub points: &'a [Point],
    /// For each ring, the place among the points at which it stops.
    pub ring_ends: &'a [usize],
    /// For each shape, the place among the rings at which it stops.
    pub shape_ends: &'a [usize],
}

impl<'a> From<&'a Polygons> for Layer<'a> {
    fn from(polygons: &'a Polygons) -> Layer<'a> {
        Layer {
            points: polygons.points(),
            ring_ends: &polygons.ring_offsets()[1..],
            shape_ends: &polygons.polygon_offsets()[1..],
        }
    }
}

impl<'a> From<&'a Shapes> for Layer<'a> {
    fn from(shapes: &'a Shapes) -> Layer<'a> {
        Layer {
            points: shapes.points(),
            ring_ends: &shapes.ring_offsets()[1..],
            shape_ends: &shapes.shape_offsets()[1..],
        }
    }
}

/// Shapes in memory of their own: a copy that is made once, for several calls.
#[derive(Clone, Debug, Default, PartialEq, Eq)]
pub struct LayerBuf {
    points: Vec<Point>,
    ring_ends: Vec<usize>,
    shape_ends: Vec<usize>,
}

impl LayerBuf {
    /// A copy of shapes, each a slice, an array or a vector of rings, which are slices, arrays or vectors of points.
    ///
    /// ```
    /// use itree::{LayerBuf, Point};
    ///
    /// let ring = |corners: [(i32, i32); 3]| corners.map(Point::from);
    /// let shapes = [vec![ring([(0, 0), (2, 0), (2, 2)])], vec![ring([(5, 5), (6, 5), (6, 6)])]];
    /// assert_eq!(LayerBuf::new(&shapes).unwrap().len(), 2);
    /// ```
    pub fn new<S: AsRef<[R]>, R: AsRef<[Point]>>(shapes: &[S]) -> Result<LayerBuf, Refused> {
        let mut layer = LayerBuf::default();
        layer.shape_ends.try_reserve_exact(shapes.len())?;
        for shape in shapes {
            for ring in shape.as_ref() {
                let ring = ring.as_ref();
                layer.points.try_reserve(ring.len())?;
                layer.points.extend_from_slice(ring);
                layer.ring_ends.try_reserve(1)?;
                layer.ring_ends.push(layer.points.len());
            }
            layer.shape_ends.push(layer.ring_ends.len());
        }
        Ok(layer)
    }

    /// Shapes of positions, each what has rings, rounded to the grid. `GridFault::Position` tells the first position that
    /// isn't finite or is off the grid.
    ///
    /// ```
    /// use itree::{Grid, LayerBuf};
    ///
    /// let shapes = [[(0.0, 0.0), (1.5, 0.0), (1.5, 1.5)], [(3.0, 3.0), (4.0, 3.0), (4.0, 4.0)]];
    /// let grid = Grid::fit(&shapes).unwrap();
    /// assert_eq!(LayerBuf::on(&grid, &shapes).unwrap().len(), 2);
    /// ```
    pub fn on<S: ToRings>(grid: &Grid, shapes: &[S]) -> Result<LayerBuf, GridFault> {
        let mut all = PositionRings::default();
        let mut shape_ends = Vec::new();
        shape_ends.try_reserve_exact(shapes.len())?;
        for shape in shapes {
            shape.add_to(&mut all)?;
            shape_ends.push(all.len());
        }
        let (points, ring_ends) = all.rounded(grid)?;
        Ok(LayerBuf {
            points,
            ring_ends,
            shape_ends,
        })
    }

    /// How many shapes there are.
    pub fn len(&self) -> usize {
        self.shape_ends.len()
    }

    /// Whether there is no shape.
    pub fn is_empty(&self) -> bool {
        self.shape_ends.is_empty()
    }
}

impl<'a> From<&'a LayerBuf> for Layer<'a> {
    fn from(layer: &'a LayerBuf) -> Layer<'a> {
        Layer {
            points: &layer.points,
            ring_ends: &layer.ring_ends,
            shape_ends: &layer.shape_ends,
        }
    }
}

/// Groups of shapes: the places of the shapes of all groups, one group after the other, and where each group stops among
/// these. A group may have no shape; a shape may be in several groups.
#[derive(Clone, Copy, Debug, Default, PartialEq, Eq)]
pub struct Groups<'a> {
    /// The places of the shapes of all groups.
    pub places: &'a [usize],
    /// For each group, the place among these at which it stops.
    pub ends: &'a [usize],
}

/// Lines: the points of all, one line after the other, and where each stops. A line goes from each of its points to the next
/// one, and not back to the first.
#[derive(Clone, Copy, Debug, Default, PartialEq, Eq)]
pub struct Lines<'a> {
    /// The points of all lines.
    pub points: &'a [Point],
    /// For each line, the place among the points at which it stops.
    pub ends: &'a [usize],
}

/// Whether a point on an edge of a shape is in it.
#[derive(Clone, Copy, Debug, PartialEq, Eq, Hash)]
pub enum Border {
    /// It is.
    Closed = 0,
    /// It isn't.
    Open = 1,
    /// One on a left or a lower border is, and one on a right or an upper border isn't: so of shapes that cover the plane side
    /// by side each point is in just one.
    HalfOpen = 2,
}

/// Which part of lines is kept.
#[derive(Clone, Copy, Debug, PartialEq, Eq, Hash)]
pub enum Side {
    /// What lies inside of rings or along their border.
    Inside = 0,
    /// The rest.
    Outside = 1,
}

/// Why shapes have no answer.
#[derive(Clone, Copy, Debug, PartialEq, Eq, Hash)]
pub enum LayerFault {
    /// Memory was refused, or the call was stopped.
    Refused,
    /// A ring, a shape, a line or a group stops before it begins, or too late; or a place is that of no shape; or there aren't
    /// as many groups of the clips as of the subjects.
    Lengths,
}

impl Display for LayerFault {
    fn fmt(&self, f: &mut Formatter<'_>) -> fmt::Result {
        match self {
            LayerFault::Refused => write!(f, "{REFUSED}"),
            LayerFault::Lengths => write!(
                f,
                "a ring, a shape, a line or a group stops where it can't, or a place is that of no shape"
            ),
        }
    }
}

impl Error for LayerFault {}

impl From<Refused> for LayerFault {
    fn from(_refused: Refused) -> LayerFault {
        LayerFault::Refused
    }
}

impl From<TryReserveError> for LayerFault {
    fn from(_refused: TryReserveError) -> LayerFault {
        LayerFault::Refused
    }
}

/// What `overlay_each` and `overlay_groups` answer: for each pair, or for each group, its polygons.
#[derive(Debug)]
pub struct Overlays {
    all: Polygons,
    ends: Vec<usize>,
}

impl Overlays {
    /// How many pairs there were, or groups.
    pub fn len(&self) -> usize {
        self.ends.len()
    }

    /// Whether there was none.
    pub fn is_empty(&self) -> bool {
        self.ends.is_empty()
    }

    /// The polygons of the pair at this place. Panics where there is none.
    pub fn polygons(&self, place: usize) -> PolygonsIter<'_> {
        let stop = self.ends[place];
        let start = if place == 0 { 0 } else { self.ends[place - 1] };
        PolygonsIter {
            polygons: &self.all,
            places: start..stop,
        }
    }

    /// The polygons of each pair, in order.
    pub fn iter(&self) -> OverlaysIter<'_> {
        OverlaysIter {
            overlays: self,
            places: 0..self.len(),
        }
    }

    /// The polygons of all pairs, one pair behind the other.
    pub fn all(&self) -> &Polygons {
        &self.all
    }

    /// Where the polygons of each pair stop among all.
    pub fn ends(&self) -> &[usize] {
        &self.ends
    }
}

impl<'a> IntoIterator for &'a Overlays {
    type Item = PolygonsIter<'a>;
    type IntoIter = OverlaysIter<'a>;

    fn into_iter(self) -> OverlaysIter<'a> {
        self.iter()
    }
}

/// Goes over the polygons of each pair.
#[derive(Clone, Debug)]
pub struct OverlaysIter<'a> {
    overlays: &'a Overlays,
    places: Range<usize>,
}

impl<'a> Iterator for OverlaysIter<'a> {
    type Item = PolygonsIter<'a>;

    fn next(&mut self) -> Option<PolygonsIter<'a>> {
        self.places.next().map(|place| self.overlays.polygons(place))
    }

    fn size_hint(&self) -> (usize, Option<usize>) {
        self.places.size_hint()
    }
}

impl ExactSizeIterator for OverlaysIter<'_> {}

/// Pieces of lines where the library wrote them: for each line its pieces. They are given back where this is dropped.
pub struct Pieces(Polygons);

impl Pieces {
    /// How many lines there were.
    pub fn len(&self) -> usize {
        self.0.len()
    }

    /// Whether there was no line.
    pub fn is_empty(&self) -> bool {
        self.0.is_empty()
    }

    /// The pieces of the line at this place, in order along it; each runs as its line does, and has two points at least.
    /// Panics where there is none.
    pub fn line(&self, place: usize) -> impl ExactSizeIterator<Item = &[Point]> {
        let lines = self.line_offsets();
        rings_at(self.points(), &self.piece_offsets()[lines[place]..=lines[place + 1]])
    }

    /// The points of all pieces, one piece behind the other.
    pub fn points(&self) -> &[Point] {
        self.0.points()
    }

    /// Where each piece begins among the points, and at last how many points there are.
    pub fn piece_offsets(&self) -> &[usize] {
        self.0.ring_offsets()
    }

    /// Where the pieces of each line begin among all, and at last how many pieces there are.
    pub fn line_offsets(&self) -> &[usize] {
        self.0.polygon_offsets()
    }
}

impl Debug for Pieces {
    fn fmt(&self, f: &mut Formatter<'_>) -> fmt::Result {
        let pieces = |place| self.line(place).collect::<Vec<_>>();
        f.debug_list().entries((0..self.len()).map(pieces)).finish()
    }
}

/// For each pair the polygons of what the operation makes of the inside of the first shape, one of the subjects, and that of
/// the second, one of the clips: as many calls of `overlay`, in one. Small shapes cost little more than their points.
///
/// `LayerFault::Lengths` where a ring or a shape stops before it begins, or behind the points or the rings, or a pair has the
/// place of no shape.
///
/// ```
/// use itree::{candidate_pairs, overlay_each, FillRule, LayerBuf, Operation, Point};
///
/// let square = |x, y, side| [(x, y), (x + side, y), (x + side, y + side), (x, y + side)].map(Point::from);
/// let parcels = LayerBuf::new(&[[square(0, 0, 4)], [square(4, 0, 4)], [square(20, 0, 4)]]).unwrap();
/// let floods = LayerBuf::new(&[[square(2, 2, 4)]]).unwrap();
/// let pairs = candidate_pairs(&parcels, &floods).unwrap();
/// let wet = overlay_each(&parcels, &floods, &pairs, Operation::Intersection, FillRule::NonZero).unwrap();
/// for (pair, polygons) in pairs.iter().zip(&wet) {
///     assert!(pair.first < 2 && polygons.len() == 1);
/// }
/// assert_eq!(wet.len(), 2);
/// ```
pub fn overlay_each<'s, 'c>(
    subjects: impl Into<Layer<'s>>,
    clips: impl Into<Layer<'c>>,
    pairs: &[Pair],
    operation: Operation,
    rule: FillRule,
) -> Result<Overlays, LayerFault> {
    let mut ends = items(pairs.len(), 0)?;
    let (mut firsts, mut seconds) = (items(pairs.len(), 0)?, items(pairs.len(), 0)?);
    for (place, pair) in pairs.iter().enumerate() {
        (firsts[place], seconds[place], ends[place]) = (pair.first, pair.second, place + 1);
    }
    let subject_groups = Groups {
        places: &firsts,
        ends: &ends,
    };
    let clip_groups = Groups {
        places: &seconds,
        ends: &ends,
    };
    overlay_groups(subjects, subject_groups, clips, clip_groups, operation, rule)
}

/// As `overlay_each`, of groups: for each group of the subjects all of its shapes' rings together, and those of the clips'
/// group at the same place. Groups of the subjects and as many empty ones of the clips, and `Operation::Union`, make the union
/// of each group.
///
/// `LayerFault::Lengths` too where a group stops before it begins or behind the places, or there aren't as many groups of both.
///
/// ```
/// use itree::{overlay_groups, FillRule, Groups, Layer, LayerBuf, Operation, Point};
///
/// let square = |x| [(x, 0), (x + 2, 0), (x + 2, 2), (x, 2)].map(Point::from);
/// let cells = LayerBuf::new(&[[square(0)], [square(2)], [square(9)]]).unwrap();
/// let (by_kind, none) = (Groups { places: &[0, 1, 2], ends: &[2, 3] }, Groups { places: &[], ends: &[0, 0] });
/// let unions = overlay_groups(&cells, by_kind, Layer::default(), none, Operation::Union, FillRule::NonZero).unwrap();
/// assert_eq!(unions.iter().map(|polygons| polygons.len()).collect::<Vec<_>>(), [1, 1]);
/// ```
pub fn overlay_groups<'s, 'c>(
    subjects: impl Into<Layer<'s>>,
    subject_groups: Groups<'_>,
    clips: impl Into<Layer<'c>>,
    clip_groups: Groups<'_>,
    operation: Operation,
    rule: FillRule,
) -> Result<Overlays, LayerFault> {
    let mut ends = items(subject_groups.ends.len(), 0)?;
    let mut handle = ptr::null_mut();
    let (subjects, clips) = (subjects.into(), clips.into());
    // SAFETY: each pointer and length are those of a slice that stays until the call ends, and those that are written are of
    // values of this call.
    let status = unsafe {
        calls::itree_overlay_each(
            &subjects.of_c(),
            &subject_groups.of_c(),
            &clips.of_c(),
            &clip_groups.of_c(),
            rule as i32,
            operation as i32,
            ends.as_mut_ptr(),
            ends.len(),
            &mut handle,
        )
    };
    check_lengths(status)?;
    let all = polygons_of(answered(status, handle)?);
    Ok(Overlays { all, ends })
}

/// The pairs of a shape of the first list and one of the second whose boxes share a point, each once, in no particular order,
/// where the library wrote them: those that an overlay has to look at. `first` is a place of the first list, and `second` one
/// of the second. The box of a shape goes from its least x and y to its greatest, with its border; a shape without points has
/// none.
///
/// ```
/// use itree::{candidate_pairs, LayerBuf, Pair, Point};
///
/// let square = |x, y| [[(x, y), (x + 2, y), (x + 2, y + 2), (x, y + 2)].map(Point::from)];
/// let (ones, others) = ([square(0, 0), square(50, 0)], [square(1, 1)]);
/// let (ones, others) = (LayerBuf::new(&ones).unwrap(), LayerBuf::new(&others).unwrap());
/// assert_eq!(candidate_pairs(&ones, &others).unwrap()[..], [Pair { first: 0, second: 0 }]);
/// ```
pub fn candidate_pairs<'s, 'o>(
    shapes: impl Into<Layer<'s>>,
    others: impl Into<Layer<'o>>,
) -> Result<Pairs, LayerFault> {
    let mut handle = ptr::null_mut();
    // SAFETY: as in `overlay_groups`.
    let status = unsafe { calls::itree_box_pairs(&shapes.into().of_c(), &others.into().of_c(), &mut handle) };
    check_lengths(status)?;
    Ok(pairs_of(status, handle)?)
}

/// The pairs of a point and a shape that it is in, where the library wrote them: by the place of the point, and of one point
/// by that of the shape. `first` is the place of the point, and `second` that of the shape. It is exact: nothing is rounded.
///
/// ```
/// use itree::{points_in, Border, FillRule, LayerBuf, Pair, Point};
///
/// let square = |x| [[(x, 0), (x + 2, 0), (x + 2, 2), (x, 2)].map(Point::from)];
/// let cells = LayerBuf::new(&[square(0), square(2)]).unwrap();
/// let points = [(1, 1), (2, 1)].map(Point::from);
/// let pairs = points_in(&points, &cells, FillRule::NonZero, Border::HalfOpen).unwrap();
/// assert_eq!(pairs[..], [Pair { first: 0, second: 0 }, Pair { first: 1, second: 1 }]);
/// ```
pub fn points_in<'s>(
    points: &[Point],
    shapes: impl Into<Layer<'s>>,
    rule: FillRule,
    border: Border,
) -> Result<Pairs, LayerFault> {
    let mut handle = ptr::null_mut();
    // SAFETY: as in `overlay_groups`.
    let status = unsafe {
        calls::itree_points_in(
            points.as_ptr(),
            points.len(),
            &shapes.into().of_c(),
            rule as i32,
            border as i32,
            &mut handle,
        )
    };
    check_lengths(status)?;
    Ok(pairs_of(status, handle)?)
}

/// The pieces of each line that lie inside of rings or along their border, or those that don't, where the library wrote them.
/// Lines and rings are copied; `clip_lines_by_rings` reads them where they lie.
///
/// Lines and rings are broken where they meet, each at a whole point, as `snap` breaks edges: so a line may be moved by half a
/// unit on either axis where others cross it, or end at or beside it. A part between two such points is inside where its middle
/// is, or where that lies on an edge of the broken rings. Parts that are kept and follow each other along a line are one piece.
///
/// ```
/// use itree::{clip_lines, FillRule, Point, Side};
///
/// let road = [(-5, 1), (9, 1)].map(Point::from);
/// let field = [(0, 0), (4, 0), (4, 4), (0, 4)].map(Point::from);
/// let pieces = clip_lines(&[road], &[field], Side::Inside, FillRule::NonZero).unwrap();
/// assert!(pieces.line(0).eq([[(0, 1), (4, 1)].map(Point::from)]));
/// ```
pub fn clip_lines<L: AsRef<[Point]>, R: AsRef<[Point]>>(
    lines: &[L],
    rings: &[R],
    side: Side,
    rule: FillRule,
) -> Result<Pieces, Refused> {
    let (line_points, line_ends) = side_by_side(lines)?;
    let (ring_points, ring_ends) = side_by_side(rings)?;
    clipped((&line_points, &line_ends), (&ring_points, &ring_ends), side, rule).map_err(|_| Refused)
}

/// As `clip_lines`, of lines and rings that are read where they lie, as those of `Polygons::rings`. It is refused too where a
/// line or a ring stops before it begins or behind its points: `LayerFault::Lengths`.
///
/// ```
/// use itree::{clip_lines_by_rings, FillRule, Lines, Point, Rings, Side};
///
/// let road = [(-5, 1), (9, 1)].map(Point::from);
/// let lines = Lines { points: &road, ends: &[2] };
/// let pieces = clip_lines_by_rings(lines, Rings::default(), Side::Outside, FillRule::NonZero).unwrap();
/// assert_eq!(pieces.points(), road);
/// ```
pub fn clip_lines_by_rings(
    lines: Lines<'_>,
    rings: Rings<'_>,
    side: Side,
    rule: FillRule,
) -> Result<Pieces, LayerFault> {
    clipped((lines.points, lines.ends), (rings.points, rings.ends), side, rule)
}

/// As `clip_lines`, of lines and rings of positions that are first rounded to the grid. Each ring of what `lines` has is a
/// line. The pieces are points of the grid.
///
/// `GridFault::Position` tells the first position of the lines, or else of the rings, that isn't finite or is off the grid.
///
/// ```
/// use itree::{clip_lines_on, FillRule, Grid, Side};
///
/// let road = [(-0.5, 0.25), (2.0, 0.25)];
/// let field = [(0.0, 0.0), (1.0, 0.0), (1.0, 1.0), (0.0, 1.0)];
/// let grid = Grid::fit(&(&road, &field)).unwrap();
/// let pieces = clip_lines_on(&grid, &road, &field, Side::Inside, FillRule::NonZero).unwrap();
/// assert_eq!(grid.positions(pieces.points()).unwrap(), [(0.0, 0.25).into(), (1.0, 0.25).into()]);
/// ```
pub fn clip_lines_on<L: ToRings + ?Sized, R: ToRings + ?Sized>(
    grid: &Grid,
    lines: &L,
    rings: &R,
    side: Side,
    rule: FillRule,
) -> Result<Pieces, GridFault> {
    let (line_points, line_ends) = grid::rounded(grid, lines)?;
    let (ring_points, ring_ends) = grid::rounded(grid, rings)?;
    clipped((&line_points, &line_ends), (&ring_points, &ring_ends), side, rule).map_err(|_| GridFault::Refused)
}

fn clipped(
    lines: (&[Point], &[usize]),
    rings: (&[Point], &[usize]),
    side: Side,
    rule: FillRule,
) -> Result<Pieces, LayerFault> {
    let mut handle = ptr::null_mut();
    let lines = calls::Lines {
        points: lines.0.as_ptr(),
        point_count: lines.0.len(),
        ends: lines.1.as_ptr(),
        line_count: lines.1.len(),
    };
    // SAFETY: as in `overlay_groups`.
    let status = unsafe {
        calls::itree_clip_lines(
            &lines,
            rings.0.as_ptr(),
            rings.0.len(),
            rings.1.as_ptr(),
            rings.1.len(),
            rule as i32,
            side as i32,
            &mut handle,
        )
    };
    check_lengths(status)?;
    Ok(Pieces(polygons_of(answered(status, handle)?)))
}

/// For each polygon, in order, the place of the polygon in whose hole it lies, the nearest around it; or `None`, where no
/// other goes round it. The polygons are such as `overlay` answers, whose first rings are the outer ones;
/// `Polygons::parents` is the same of an answer.
///
/// `LayerFault::Lengths` where a ring or a polygon stops before it begins, or behind the points or the rings.
pub fn parents<'p>(polygons: impl Into<Layer<'p>>) -> Result<Vec<Option<usize>>, LayerFault> {
    let polygons = polygons.into();
    let mut places = items(polygons.shape_ends.len(), 0)?;
    // SAFETY: as in `overlay_groups`.
    let status = unsafe { calls::itree_polygon_parents(&polygons.of_c(), places.as_mut_ptr(), places.len()) };
    check_lengths(status)?;
    if status != calls::ANSWERED {
        return Err(LayerFault::Refused);
    }
    let mut found = items(places.len(), None)?;
    for (answer, place) in found.iter_mut().zip(places) {
        *answer = (place != usize::MAX).then_some(place);
    }
    Ok(found)
}

impl Polygons {
    /// For each polygon, in order, the place of the one in whose hole it lies, the nearest around it; or `None`, where no
    /// other goes round it. So the parent of an island in a lake is the land around the lake.
    ///
    /// ```
    /// use itree::{simplify, FillRule, Point};
    ///
    /// let square = |low, high| [(low, low), (high, low), (high, high), (low, high)].map(Point::from);
    /// let rings = [square(0, 9), square(1, 8), square(3, 6)];
    /// let polygons = simplify(&rings, FillRule::EvenOdd).unwrap();
    /// let land = polygons.iter().position(|polygon| polygon.holes().len() == 1).unwrap();
    /// let parents = polygons.parents().unwrap();
    /// assert_eq!((parents[land], parents[1 - land]), (None, Some(land)));
    /// ```
    pub fn parents(&self) -> Result<Vec<Option<usize>>, Refused> {
        parents(self).map_err(|_| Refused)
    }
}

impl Layer<'_> {
    pub(crate) fn of_c(&self) -> calls::Shapes {
        calls::Shapes {
            points: self.points.as_ptr(),
            point_count: self.points.len(),
            ring_ends: self.ring_ends.as_ptr(),
            ring_count: self.ring_ends.len(),
            shape_ends: self.shape_ends.as_ptr(),
            shape_count: self.shape_ends.len(),
        }
    }
}

impl Groups<'_> {
    fn of_c(&self) -> calls::Groups {
        calls::Groups {
            places: self.places.as_ptr(),
            place_count: self.places.len(),
            ends: self.ends.as_ptr(),
            group_count: self.ends.len(),
        }
    }
}

pub(crate) fn check_lengths(status: i32) -> Result<(), LayerFault> {
    match status {
        calls::LENGTHS => Err(LayerFault::Lengths),
        _ => Ok(()),
    }
}
