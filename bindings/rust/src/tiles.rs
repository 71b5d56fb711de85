//! Overlays within windows, and by threads.

use crate::{
    answered, calls, chains_of, overlay_rings, polygons_of, Chains, FillRule, Layer, Operation, OverlayFault, Point,
    Polygons, Refused, Rings, REFUSED,
};
use std::collections::TryReserveError;
use std::error::Error;
use std::fmt::{self, Display, Formatter};
use std::panic::resume_unwind;
use std::ptr;
use std::sync::atomic::{AtomicUsize, Ordering};
use std::thread;

/// A rectangle with whole corners. A point lies in it from its left and its lower side on, and before its right and its upper
/// one: so of windows side by side one has it.
#[repr(C)]
#[derive(Clone, Copy, Debug, Default, PartialEq, Eq, PartialOrd, Ord, Hash)]
pub struct Window {
    /// Where its left side lies.
    pub left: i32,
    /// Where its lower side lies.
    pub low: i32,
    /// Where its right side lies.
    pub right: i32,
    /// Where its upper side lies.
    pub high: i32,
}

/// Why there is no tile.
#[derive(Clone, Copy, Debug, PartialEq, Eq, Hash)]
pub enum TileFault {
    /// Memory was refused, or the call was stopped.
    Refused,
    /// A ring stops before it begins, or behind the points; or a polygon, where the rings do.
    Lengths,
    /// No point lies in a window, it comes too near to the ends of 32 bits, or two windows overlap.
    Window,
    /// Tiles don't fit: a polygon leaves its window, or polygons at borders overlap.
    Unfit,
}

impl Display for TileFault {
    fn fmt(&self, f: &mut Formatter<'_>) -> fmt::Result {
        match self {
            TileFault::Refused => write!(f, "{REFUSED}"),
            TileFault::Lengths => write!(f, "a ring stops before it begins, or behind the points"),
            TileFault::Window => write!(
                f,
                "a window has no points or comes too near to the ends of 32 bits, or two overlap"
            ),
            TileFault::Unfit => write!(
                f,
                "tiles don't fit: a polygon leaves its window, or polygons at borders overlap"
            ),
        }
    }
}

impl Error for TileFault {}

impl From<TryReserveError> for TileFault {
    fn from(_refused: TryReserveError) -> TileFault {
        TileFault::Refused
    }
}

impl From<Refused> for TileFault {
    fn from(_refused: Refused) -> TileFault {
        TileFault::Refused
    }
}

impl From<OverlayFault> for TileFault {
    fn from(fault: OverlayFault) -> TileFault {
        match fault {
            OverlayFault::Refused => TileFault::Refused,
            OverlayFault::Lengths => TileFault::Lengths,
        }
    }
}

/// The polygons of what of `overlay_rings`'s result lies in a window: a tile. Tiles of windows side by side cover no point twice,
/// and `join` makes one set of polygons of them.
///
/// They wind once around each point of the window that is of the result, and not at all around any other, if each edge of the
/// rings given runs along an axis, or isn't within half a unit, on both axes, of the point. Around no point do they wind more
/// often, and around none outside of the window at all. Where an edge comes through a side of the window it is broken there, at
/// a whole point, so it may be moved a little.
///
/// `TileFault::Lengths` comes where a ring stops before it begins or behind the points; else `TileFault::Window`, where no point lies
/// in the window, or a side of it is less than 2 away from what 32 bits hold.
///
/// ```
/// use itree::{overlay_in, FillRule, Operation, Point, Rings, Window};
///
/// let points = [(0, 0), (9, 0), (9, 9), (0, 9)].map(Point::from);
/// let field = Rings { points: &points, ends: &[4] };
/// let window = Window { left: 0, low: 0, right: 5, high: 20 };
/// let left = overlay_in(window, field, Rings::default(), Operation::Union, FillRule::NonZero).unwrap();
/// assert!(left.points().iter().all(|point| point.x <= 5));
/// ```
pub fn overlay_in(
    window: Window,
    subject: Rings<'_>,
    clip: Rings<'_>,
    operation: Operation,
    rule: FillRule,
) -> Result<Polygons, TileFault> {
    let mut handle = ptr::null_mut();
    // SAFETY: each pointer and length are those of a slice, and the others are of values of this call.
    let status = unsafe {
        calls::itree_overlay_in(
            &window,
            subject.points.as_ptr(),
            subject.points.len(),
            subject.ends.as_ptr(),
            subject.ends.len(),
            clip.points.as_ptr(),
            clip.points.len(),
            clip.ends.as_ptr(),
            clip.ends.len(),
            rule as i32,
            operation as i32,
            &mut handle,
        )
    };
    tile_of(status, handle)
}

/// The polygons of a handle that a call wrote, where it answered.
fn tile_of(status: i32, handle: *mut calls::Handle) -> Result<Polygons, TileFault> {
    fault_of(status)?;
    Ok(answered(status, handle).map(polygons_of)?)
}

/// What a status tells that isn't memory.
fn fault_of(status: i32) -> Result<(), TileFault> {
    match status {
        calls::LENGTHS => Err(TileFault::Lengths),
        calls::WINDOW => Err(TileFault::Window),
        calls::UNFIT => Err(TileFault::Unfit),
        _ => Ok(()),
    }
}

/// What each ring becomes for a window, in their order, without its first point once more; nothing where all of its points lie
/// beyond one side of the window, widened by 2, or on the line along it.
///
/// Around each point of the window a ring winds as often as before, and its edges that come within half a unit of such a point, on
/// both axes, are edges of it before. Each point is one of the ring before, or lies in the window widened by 2 or on its sides.
/// So `overlay_in` of the window promises of these rings what it does of those given: who makes its tile needs no more of them.
///
/// `TileFault` comes as that of `overlay_in`.
///
/// ```
/// use itree::{crop, Point, Rings, Window};
///
/// let points = [(-50, -50), (50, -50), (50, 50), (-50, 50), (70, 70), (80, 70), (80, 80)].map(Point::from);
/// let rings = Rings { points: &points, ends: &[4, 7] };
/// let cropped = crop(Window { left: 0, low: 0, right: 4, high: 4 }, rings).unwrap();
/// assert_eq!(cropped.chain(0), [(-2, -2), (6, -2), (6, 6), (-2, 6)].map(Point::from));
/// assert!(cropped.chain(1).is_empty());
/// let again = Rings { points: cropped.points(), ends: &cropped.offsets()[1..] };
/// assert_eq!(again.ends, [4, 4]);
/// ```
pub fn crop(window: Window, rings: Rings<'_>) -> Result<Chains, TileFault> {
    let mut handle = ptr::null_mut();
    // SAFETY: as in `overlay_in`.
    let status = unsafe {
        calls::itree_crop(
            &window,
            rings.points.as_ptr(),
            rings.points.len(),
            rings.ends.as_ptr(),
            rings.ends.len(),
            &mut handle,
        )
    };
    fault_of(status)?;
    Ok(chains_of(status, handle)?)
}

/// A window, and the polygons of it, as `overlay_in` makes them.
#[derive(Clone, Copy, Debug, Default, PartialEq, Eq)]
pub struct Tile<'a> {
    /// The window.
    pub window: Window,
    /// Its polygons, as those of a reference to `Polygons`.
    pub polygons: Layer<'a>,
}

/// The lists of tiles, those of each behind those of the one before it.
#[derive(Default)]
struct JoinedTiles {
    windows: Vec<Window>,
    tile_ends: Vec<usize>,
    polygon_ends: Vec<usize>,
    ring_ends: Vec<usize>,
    points: Vec<Point>,
}

impl JoinedTiles {
    /// Points and rings behind the last are of no polygon, and left out.
    fn add(&mut self, tile: &Tile<'_>) -> Result<(), TileFault> {
        let Layer {
            points,
            ring_ends,
            shape_ends,
        } = tile.polygons;
        let rings = shape_ends.last().copied().unwrap_or_default();
        let ring_ends = ring_ends.get(..rings).ok_or(TileFault::Lengths)?;
        let count = ring_ends.last().copied().unwrap_or_default();
        let points = points.get(..count).ok_or(TileFault::Lengths)?;
        let (first_ring, first_point) = (self.ring_ends.len(), self.points.len());
        self.polygon_ends.try_reserve(shape_ends.len())?;
        self.polygon_ends.extend(shape_ends.iter().map(|end| first_ring + end));
        self.ring_ends.try_reserve(rings)?;
        self.ring_ends.extend(ring_ends.iter().map(|end| first_point + end));
        self.points.try_reserve(count)?;
        self.points.extend_from_slice(points);
        self.windows.try_reserve(1)?;
        self.windows.push(tile.window);
        self.tile_ends.try_reserve(1)?;
        self.tile_ends.push(self.polygon_ends.len());
        Ok(())
    }
}

/// The polygons of tiles as one set: borders between them are gone, nothing is moved, and polygons that come to no border are as
/// they were. Around each point they wind as often as those of all tiles together. The tiles stand there in any order; what was
/// joined can be joined again, by a window around all of its own.
///
/// `TileFault::Lengths` comes where a ring or a polygon stops where it can't; else `TileFault::Window`, where no point lies in a
/// window, or two windows have one in common; else `TileFault::Unfit`, where a point of a polygon lies neither in its window nor on
/// its sides, or the polygons that come to the sides of their windows wind around some point neither once nor not at all.
///
/// ```
/// use itree::{join, overlay_in, FillRule, Operation, Point, Rings, Tile, Window};
///
/// let points = [(0, 0), (9, 0), (9, 9), (0, 9)].map(Point::from);
/// let field = Rings { points: &points, ends: &[4] };
/// let windows = [(0, 5), (5, 9)].map(|(left, right)| Window { left, low: 0, right, high: 9 });
/// let [left, right] = windows.map(|window| {
///     overlay_in(window, field, Rings::default(), Operation::Union, FillRule::NonZero).unwrap()
/// });
/// let tile = |window, polygons| Tile { window, polygons };
/// let joined = join(&[tile(windows[0], (&left).into()), tile(windows[1], (&right).into())]).unwrap();
/// assert_eq!((joined.len(), joined.points().len()), (1, 4));
/// ```
pub fn join(tiles: &[Tile<'_>]) -> Result<Polygons, TileFault> {
    let mut all = JoinedTiles::default();
    for tile in tiles {
        all.add(tile)?;
    }
    let mut handle = ptr::null_mut();
    // SAFETY: as in `overlay_in`.
    let status = unsafe {
        calls::itree_join(
            all.windows.as_ptr(),
            all.windows.len(),
            all.tile_ends.as_ptr(),
            all.tile_ends.len(),
            all.polygon_ends.as_ptr(),
            all.polygon_ends.len(),
            all.ring_ends.as_ptr(),
            all.ring_ends.len(),
            all.points.as_ptr(),
            all.points.len(),
            &mut handle,
        )
    };
    tile_of(status, handle)
}

/// The window that several make up without a gap: it has each point of theirs, and no other. `None` where they leave a gap, or there
/// are none.
///
/// `TileFault::Window` comes where no point lies in a window, or two windows overlap.
///
/// ```
/// use itree::{whole_window, Window};
///
/// let (left, right) = (Window { left: 0, low: 0, right: 5, high: 9 }, Window { left: 5, low: 0, right: 9, high: 9 });
/// assert_eq!(whole_window(&[left, right]), Ok(Some(Window { left: 0, low: 0, right: 9, high: 9 })));
/// assert_eq!(whole_window(&[left, Window { low: 1, ..right }]), Ok(None));
/// ```
pub fn whole_window(windows: &[Window]) -> Result<Option<Window>, TileFault> {
    let (mut whole, mut found) = (Window::default(), 0);
    // SAFETY: the pointer and the length are those of a slice, and the others are of values of this call.
    let status = unsafe { calls::itree_whole_window(windows.as_ptr(), windows.len(), &mut whole, &mut found) };
    fault_of(status)?;
    Ok((found != 0).then_some(whole))
}

/// The points of all rings.
fn points_of<'a>(rings: Rings<'a>) -> Result<&'a [Point], TileFault> {
    let count = rings.ends.last().copied().unwrap_or_default();
    rings.points.get(..count).ok_or(TileFault::Lengths)
}

/// The box of points, or of none one with no point.
fn box_of<'a>(points: impl Iterator<Item = &'a Point>) -> Window {
    let nothing = Window {
        left: i32::MAX,
        low: i32::MAX,
        right: i32::MIN,
        high: i32::MIN,
    };
    points.fold(nothing, |all, point| Window {
        left: all.left.min(point.x),
        low: all.low.min(point.y),
        right: all.right.max(point.x),
        high: all.high.max(point.y),
    })
}

/// Points of both, one of so many that there are few.
fn sample_of(one: &[Point], other: &[Point]) -> Result<Vec<Point>, TileFault> {
    const MOST: usize = 1 << 16;
    let step = (one.len() + other.len()) / MOST + 1;
    let mut sample = Vec::new();
    sample.try_reserve_exact(MOST)?;
    sample.extend(one.iter().chain(other).step_by(step));
    Ok(sample)
}

/// The sides of so many parts between two numbers: with as many of the sorted ones in each, but where these repeat.
fn sides_of(first: i32, last: i32, sorted: &[i32], parts: usize) -> Vec<i32> {
    let mut sides = vec![first];
    for part in 1..parts {
        let side = sorted[sorted.len() * part / parts];
        if sides[sides.len() - 1] < side && side < last {
            sides.push(side);
        }
    }
    sides.push(last);
    sides
}

/// So many windows or a few more or less, which part a rectangle: columns, each cut into rows, with as many points in each.
fn windows_of(around: Window, mut sample: Vec<Point>, count: usize) -> Vec<Window> {
    let columns = (1..).find(|columns| columns * columns >= count).unwrap_or(1);
    sample.sort_unstable();
    let xs: Vec<i32> = sample.iter().map(|point| point.x).collect();
    let mut windows = Vec::new();
    for column in sides_of(around.left, around.right, &xs, columns).windows(2) {
        let [start, stop] = [column[0], column[1]].map(|side| xs.partition_point(|x| *x < side));
        let mut ys: Vec<i32> = sample[start..stop].iter().map(|point| point.y).collect();
        ys.sort_unstable();
        let rows = (ys.len() * count + sample.len() / 2) / sample.len();
        windows.extend(
            sides_of(around.low, around.high, &ys, rows)
                .windows(2)
                .map(|row| Window {
                    left: column[0],
                    low: row[0],
                    right: column[1],
                    high: row[1],
                }),
        );
    }
    windows
}

/// An overlay by windows.
struct ByWindows<'a> {
    subject: Rings<'a>,
    clip: Rings<'a>,
    operation: Operation,
    rule: FillRule,
    windows: Vec<Window>,
}

impl ByWindows<'_> {
    /// The tile of the window at this place.
    fn tile(&self, place: usize) -> Result<Polygons, TileFault> {
        overlay_in(self.windows[place], self.subject, self.clip, self.operation, self.rule)
    }

    /// The tiles that a thread makes: each that no other one has begun, until there is none left, or there was a fault.
    fn work(&self, next: &AtomicUsize) -> Vec<(usize, Result<Polygons, TileFault>)> {
        let mut made = Vec::new();
        loop {
            let place = next.fetch_add(1, Ordering::Relaxed);
            if place >= self.windows.len() {
                return made;
            }
            let tile = self.tile(place);
            if tile.is_err() {
                next.store(self.windows.len(), Ordering::Relaxed);
            }
            made.push((place, tile));
        }
    }

    /// The tiles of all windows, by so many threads at once, of which this is one; or the first fault.
    fn tiles(&self, threads: usize) -> Result<Vec<Polygons>, TileFault> {
        let next = AtomicUsize::new(0);
        let mut made = thread::scope(|scope| {
            let work = || self.work(&next);
            let start = |_| thread::Builder::new().spawn_scoped(scope, work).ok();
            let others: Vec<_> = (1..threads.min(self.windows.len())).filter_map(start).collect();
            let mut made = work();
            for other in others {
                made.extend(other.join().unwrap_or_else(|panicked| resume_unwind(panicked)));
            }
            made
        });
        made.sort_unstable_by_key(|(place, _)| *place);
        made.into_iter().map(|(_, tile)| tile).collect()
    }
}

/// What `overlay_rings` answers of the same, by so many threads at once, of which this is one; 0 is as many as there are
/// processors.
///
/// Each makes tiles of windows that hold about 60,000 points, 64 windows at most, and these are joined. The windows depend on the
/// points alone, so the answer doesn't depend on the number of threads. Where an edge comes through a side of a window, it is
/// broken there, at a whole point, and may be moved a little: the polygons are right where `overlay_in` says so.
///
/// Few points are one call of `overlay_rings`, and so are points that come nearer than 2 to the ends of 32 bits, which no window
/// reaches. `limited_to` and `stopped_by` hold for the calls of this thread alone. `TileFault::Lengths` comes where a ring stops
/// before it begins or behind the points.
///
/// ```
/// use itree::{overlay_threads, FillRule, Operation, Point, Rings};
///
/// let points = [(0, 0), (9, 0), (9, 9), (0, 9)].map(Point::from);
/// let field = Rings { points: &points, ends: &[4] };
/// let polygons = overlay_threads(field, Rings::default(), Operation::Union, FillRule::NonZero, 4).unwrap();
/// assert_eq!(polygons.len(), 1);
/// ```
pub fn overlay_threads(
    subject: Rings<'_>,
    clip: Rings<'_>,
    operation: Operation,
    rule: FillRule,
    threads: usize,
) -> Result<Polygons, TileFault> {
    const POINTS_OF_WINDOW: usize = 60_000;
    const MOST: usize = 64;
    const LEAST_SIDE: i32 = i32::MIN + 2;
    const GREATEST_SIDE: i32 = i32::MAX - 2;
    let (subject_points, clip_points) = (points_of(subject)?, points_of(clip)?);
    let all = box_of(subject_points.iter().chain(clip_points));
    let count = MOST.min((subject_points.len() + clip_points.len()) / POINTS_OF_WINDOW);
    if count < 2 || all.left.min(all.low) < LEAST_SIDE || all.right.max(all.high) > GREATEST_SIDE {
        return Ok(overlay_rings(subject, clip, operation, rule)?);
    }
    let around = Window {
        left: LEAST_SIDE.max(all.left - 1),
        low: LEAST_SIDE.max(all.low - 1),
        right: GREATEST_SIDE.min(all.right + 1),
        high: GREATEST_SIDE.min(all.high + 1),
    };
    let by_windows = ByWindows {
        windows: windows_of(around, sample_of(subject_points, clip_points)?, count),
        subject,
        clip,
        operation,
        rule,
    };
    let threads = match threads {
        0 => thread::available_parallelism().map_or(1, usize::from),
        some => some,
    };
    let tiles = by_windows.tiles(threads)?;
    let windows = by_windows.windows.iter().zip(&tiles);
    let tiles: Vec<Tile<'_>> = windows
        .map(|(&window, polygons)| Tile {
            window,
            polygons: polygons.into(),
        })
        .collect();
    join(&tiles)
}
