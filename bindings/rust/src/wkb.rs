//! Shapes in well-known binary, read and written.

use crate::{calls, items, polygons_of, rings_at, Grid, Point, Polygons, Position, Refused, Rings, REFUSED};
use std::error::Error;
use std::fmt::{self, Debug, Display, Formatter};
use std::ptr::{self, NonNull};

/// What is faulty of a shape in well-known binary.
#[derive(Clone, Copy, Debug, PartialEq, Eq, Hash)]
pub enum WkbFaultKind {
    /// The shape's bytes end before it does.
    Short,
    /// A byte order is neither 0 nor 1.
    ByteOrder,
    /// A geometry is of another kind than a Polygon, a MultiPolygon or a collection.
    Kind,
    /// Collections lie within one another too deep.
    Nested,
    /// A coordinate isn't finite.
    NotFinite,
    /// A position is off the grid.
    OffGrid,
    /// Bytes stand behind the shape's geometry.
    LeftOver,
    /// An offset is less than the one before it, or stands behind the bytes.
    Offsets,
}

impl WkbFaultKind {
    fn of(kind: usize) -> WkbFaultKind {
        match kind {
            1 => WkbFaultKind::Short,
            2 => WkbFaultKind::ByteOrder,
            3 => WkbFaultKind::Kind,
            4 => WkbFaultKind::Nested,
            5 => WkbFaultKind::NotFinite,
            6 => WkbFaultKind::OffGrid,
            7 => WkbFaultKind::LeftOver,
            _ => WkbFaultKind::Offsets,
        }
    }

    fn text(self) -> &'static str {
        match self {
            WkbFaultKind::Short => "the bytes end before it does",
            WkbFaultKind::ByteOrder => "a byte order is neither 0 nor 1",
            WkbFaultKind::Kind => "a geometry is no polygon, multipolygon or collection",
            WkbFaultKind::Nested => "collections lie within one another too deep",
            WkbFaultKind::NotFinite => "a coordinate isn't finite",
            WkbFaultKind::OffGrid => "a position is off the grid",
            WkbFaultKind::LeftOver => "bytes are left over",
            WkbFaultKind::Offsets => "an offset is faulty",
        }
    }
}

/// Why shapes in well-known binary aren't read.
#[derive(Clone, Copy, Debug, PartialEq, Eq, Hash)]
pub enum WkbFault {
    /// Memory was refused, or the call was stopped.
    Refused,
    /// A shape is faulty.
    Faulty {
        /// What is faulty.
        kind: WkbFaultKind,
        /// The place of the shape.
        shape: usize,
        /// The place among all bytes at which what is faulty begins.
        byte: usize,
    },
}

impl Display for WkbFault {
    fn fmt(&self, f: &mut Formatter<'_>) -> fmt::Result {
        match self {
            WkbFault::Refused => write!(f, "{REFUSED}"),
            WkbFault::Faulty { kind, shape, byte } => {
                write!(f, "the shape at place {shape}, from byte {byte} on: {}", kind.text())
            }
        }
    }
}

impl Error for WkbFault {}

/// Shapes that were read, where the library wrote them: for each the rings of all its polygons. They are given back where
/// this is dropped.
pub struct Shapes(Polygons);

impl Shapes {
    /// How many shapes there are.
    pub fn len(&self) -> usize {
        self.0.len()
    }

    /// Whether there is no shape.
    pub fn is_empty(&self) -> bool {
        self.0.is_empty()
    }

    /// The rings of the shape at this place. Panics where there is none.
    pub fn shape(&self, place: usize) -> impl ExactSizeIterator<Item = &[Point]> {
        let offsets = self.shape_offsets();
        rings_at(
            self.points(),
            &self.0.ring_offsets()[offsets[place]..=offsets[place + 1]],
        )
    }

    /// The points of all rings, one ring behind the other.
    pub fn points(&self) -> &[Point] {
        self.0.points()
    }

    /// Where each ring begins among the points, and at last how many points there are.
    pub fn ring_offsets(&self) -> &[usize] {
        self.0.ring_offsets()
    }

    /// Where each shape begins among the rings, and at last how many rings there are.
    pub fn shape_offsets(&self) -> &[usize] {
        self.0.polygon_offsets()
    }

    /// The rings of all shapes, as `overlay_rings` takes them.
    pub fn rings(&self) -> Rings<'_> {
        self.0.rings()
    }
}

impl Debug for Shapes {
    fn fmt(&self, f: &mut Formatter<'_>) -> fmt::Result {
        let shape = |place| self.shape(place).collect::<Vec<_>>();
        f.debug_list().entries((0..self.len()).map(shape)).finish()
    }
}

/// The rings of shapes in well-known binary, their positions rounded to the grid: outer rings counterclockwise, and holes
/// clockwise.
///
/// The shape at i is the bytes from the offset at i on and before that at i + 1, as in a list of the Arrow format: one shape
/// has the offsets `[0, bytes.len()]`. It is a Polygon, a MultiPolygon, or a GeometryCollection of these and of such
/// collections, by ISO's format or EWKB, of either byte order.
///
/// ```
/// use itree::{overlay_rings, read_wkb, wkb_corners, FillRule, Grid, Operation, Rings};
///
/// let mut bytes = vec![1, 3, 0, 0, 0, 1, 0, 0, 0, 4, 0, 0, 0];
/// for number in [0.0, 0.0, 1.5, 0.0, 1.5, 1.5, 0.0, 0.0_f64] {
///     bytes.extend(number.to_le_bytes());
/// }
/// let offsets = [0, bytes.len()];
/// let (low, high) = wkb_corners(&bytes, &offsets).unwrap().unwrap();
/// let grid = Grid::fit(&[low, high]).unwrap();
/// let shapes = read_wkb(&bytes, &offsets, &grid).unwrap();
/// let polygons = overlay_rings(shapes.rings(), Rings::default(), Operation::Union, FillRule::NonZero).unwrap();
/// assert_eq!(polygons.to_wkb(&grid, 0).unwrap().len(), 9 + bytes.len());
/// ```
pub fn read_wkb(bytes: &[u8], offsets: &[usize], grid: &Grid) -> Result<Shapes, WkbFault> {
    let (mut handle, mut fault) = (ptr::null_mut(), calls::WkbPlace::default());
    // SAFETY: each pointer and length are those of a slice, and those that are written are of values of this call.
    let status = unsafe {
        calls::itree_wkb_read(
            bytes.as_ptr(),
            bytes.len(),
            offsets.as_ptr(),
            offsets.len(),
            grid,
            &mut handle,
            &mut fault,
        )
    };
    answered(status, fault)?;
    let handle = NonNull::new(handle).ok_or(WkbFault::Refused)?;
    Ok(Shapes(polygons_of(handle)))
}

/// The least and the greatest coordinates of shapes in well-known binary, to which a grid is fitted; or `None` where they
/// have no position.
pub fn wkb_corners(bytes: &[u8], offsets: &[usize]) -> Result<Option<(Position, Position)>, WkbFault> {
    let (mut corners, mut found) = ([Position::default(); 2], 0);
    let mut fault = calls::WkbPlace::default();
    // SAFETY: as in `read_wkb`.
    let status = unsafe {
        calls::itree_wkb_corners(
            bytes.as_ptr(),
            bytes.len(),
            offsets.as_ptr(),
            offsets.len(),
            corners.as_mut_ptr(),
            corners.len(),
            &mut found,
            &mut fault,
        )
    };
    answered(status, fault)?;
    Ok((found == 2).then_some((corners[0], corners[1])))
}

/// The number of the reference system that a shape in EWKB has, or 0 where it has none.
pub fn wkb_srid(shape: &[u8]) -> u32 {
    let mut srid = 0;
    // SAFETY: as in `read_wkb`.
    unsafe { calls::itree_wkb_srid(shape.as_ptr(), shape.len(), &mut srid) };
    srid
}

fn answered(status: i32, fault: calls::WkbPlace) -> Result<(), WkbFault> {
    match status {
        calls::ANSWERED => Ok(()),
        calls::FAULTY => Err(WkbFault::Faulty {
            kind: WkbFaultKind::of(fault.kind),
            shape: fault.shape,
            byte: fault.byte,
        }),
        _ => Err(WkbFault::Refused),
    }
}

impl Polygons {
    /// The polygons, which are points of the grid, as one MultiPolygon in well-known binary; in EWKB where the number of a
    /// reference system isn't 0.
    pub fn to_wkb(&self, grid: &Grid, srid: u32) -> Result<Vec<u8>, Refused> {
        self.written(grid, calls::MULTIPOLYGON, srid)
    }

    /// The same, each polygon a shape of its own, and where each begins, and how many bytes there are.
    pub fn to_wkb_each(&self, grid: &Grid, srid: u32) -> Result<(Vec<u8>, Vec<usize>), Refused> {
        let bytes = self.written(grid, calls::EACH_POLYGON, srid)?;
        let mut offsets = items(self.len() + 1, 0)?;
        for (place, polygon) in self.iter().enumerate() {
            let rings: usize = polygon.rings().map(|ring| 4 + 16 * (ring.len() + 1)).sum();
            offsets[place + 1] = offsets[place] + if srid == 0 { 9 } else { 13 } + rings;
        }
        Ok((bytes, offsets))
    }

    fn written(&self, grid: &Grid, form: i32, srid: u32) -> Result<Vec<u8>, Refused> {
        let (rings, stops) = (self.rings(), &self.polygon_offsets()[1..]);
        let write = |bytes: &mut [u8]| {
            let mut size = 0;
            // SAFETY: as in `read_wkb`.
            let status = unsafe {
                calls::itree_wkb_write(
                    rings.points.as_ptr(),
                    rings.points.len(),
                    rings.ends.as_ptr(),
                    rings.ends.len(),
                    stops.as_ptr(),
                    stops.len(),
                    grid,
                    form,
                    srid,
                    bytes.as_mut_ptr(),
                    bytes.len(),
                    &mut size,
                )
            };
            (status == calls::ANSWERED).then_some(size).ok_or(Refused)
        };
        let mut bytes = items(write(&mut [])?, 0)?;
        write(&mut bytes)?;
        Ok(bytes)
    }
}
