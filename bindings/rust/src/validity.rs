//! Whether polygons are valid, or what is wrong with them.

use crate::layers::check_lengths;
use crate::{calls, Edge, Layer, LayerFault, Point};
use std::error::Error;
use std::fmt::{self, Debug, Display, Formatter};

/// What is wrong with polygons that aren't valid, and where.
#[derive(Clone, Copy, Debug, PartialEq, Eq, Hash)]
pub enum PolygonsFault {
    /// The ring has fewer than three points.
    FewPoints {
        /// Its place among all rings.
        ring: usize,
    },
    /// The ring crosses or touches itself.
    MeetsItself {
        /// Its place among all rings.
        ring: usize,
        /// An edge of it.
        one: Edge,
        /// Another one, which it meets.
        other: Edge,
    },
    /// Two edges cross or share more than one point; those of one ring are told as `MeetsItself`.
    RingsCross {
        /// The one edge, as it is where outer rings run counterclockwise and holes clockwise.
        one: Edge,
        /// The other edge.
        other: Edge,
    },
    /// A hole lies outside of its outer ring, or in another hole.
    HolesOutside {
        /// The place of the polygon.
        polygon: usize,
        /// A point near which it does.
        point: Point,
    },
    /// Two polygons overlap.
    PolygonsOverlap {
        /// A point near which they do.
        point: Point,
    },
    /// The inside of a polygon is no one piece: its rings touch along a circle.
    Disconnected {
        /// The place of the polygon.
        polygon: usize,
        /// The place of a ring of the circle, among those of the polygon.
        ring: usize,
        /// The point in which this ring touches another one.
        point: Point,
    },
}

impl PolygonsFault {
    fn of(told: &calls::FaultPlace) -> Option<PolygonsFault> {
        let &calls::FaultPlace {
            kind,
            polygon,
            ring,
            point,
            one,
            other,
        } = told;
        match kind {
            0 => None,
            1 => Some(PolygonsFault::FewPoints { ring }),
            2 => Some(PolygonsFault::MeetsItself { ring, one, other }),
            3 => Some(PolygonsFault::RingsCross { one, other }),
            4 => Some(PolygonsFault::HolesOutside { polygon, point }),
            5 => Some(PolygonsFault::PolygonsOverlap { point }),
            _ => Some(PolygonsFault::Disconnected { polygon, ring, point }),
        }
    }
}

impl Display for PolygonsFault {
    fn fmt(&self, f: &mut Formatter<'_>) -> fmt::Result {
        match self {
            PolygonsFault::FewPoints { ring } => write!(f, "the ring at place {ring} has fewer than three points"),
            PolygonsFault::MeetsItself { ring, .. } => write!(f, "the ring at place {ring} crosses or touches itself"),
            PolygonsFault::RingsCross { .. } => write!(f, "two rings cross, or share more than single points"),
            PolygonsFault::HolesOutside { polygon, .. } => {
                write!(
                    f,
                    "a hole of the polygon at place {polygon} lies outside of it, or in another hole"
                )
            }
            PolygonsFault::PolygonsOverlap { .. } => write!(f, "two polygons overlap"),
            PolygonsFault::Disconnected { polygon, .. } => {
                write!(f, "the inside of the polygon at place {polygon} is no one piece")
            }
        }
    }
}

impl Error for PolygonsFault {}

/// What is wrong with polygons, or `None` where they are valid. It is exact: nothing is rounded.
///
/// Each shape is a polygon: its first ring is the outer one, those behind it are its holes. Rings may run either way, and a
/// point that is the next one again, as the first one at the end of its ring, counts once. Polygons are valid where each ring has
/// three points or more, visits none twice, and neither crosses nor touches itself; where edges of several rings meet only in
/// single points, at an end of one of them; where holes lie in their outer ring, side by side; where no two polygons overlap;
/// and where the inside of each polygon is one piece.
///
/// ```
/// use itree::{polygons_fault, LayerBuf, Point, PolygonsFault};
///
/// let bow = [(0, 0), (9, 9), (9, 0), (0, 9)].map(Point::from);
/// let fault = polygons_fault(&LayerBuf::new(&[[bow]]).unwrap()).unwrap();
/// assert!(matches!(fault, Some(PolygonsFault::MeetsItself { ring: 0, .. })));
/// ```
///
/// `LayerFault::Lengths` where a ring or a polygon stops before it begins, or behind the points or the rings, or rings stand
/// behind the last polygon.
pub fn polygons_fault<'p>(polygons: impl Into<Layer<'p>>) -> Result<Option<PolygonsFault>, LayerFault> {
    let polygons = polygons.into();
    let mut told = calls::FaultPlace::default();
    // SAFETY: each pointer and length are those of a slice, and what is written is a value of this call.
    let status = unsafe { calls::itree_polygons_fault(&polygons.of_c(), &mut told) };
    check_lengths(status)?;
    if status != calls::ANSWERED {
        return Err(LayerFault::Refused);
    }
    Ok(PolygonsFault::of(&told))
}

/// Whether polygons are valid: whether `polygons_fault` finds nothing.
///
/// ```
/// use itree::{is_valid, LayerBuf, Point};
///
/// let square = [(0, 0), (9, 0), (9, 9), (0, 9)].map(Point::from);
/// assert_eq!(is_valid(&LayerBuf::new(&[[square]]).unwrap()), Ok(true));
/// ```
pub fn is_valid<'p>(polygons: impl Into<Layer<'p>>) -> Result<bool, LayerFault> {
    Ok(polygons_fault(polygons)?.is_none())
}
