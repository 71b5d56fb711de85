//! What of a field is dry: the field less its water, both shapes of a kind of one's own, in metres and parts of them.

use itree::{overlay_on, FillRule, Grid, Operation, Position, PositionRings, Refused, ToRings};
use std::error::Error;

/// A shape as another crate has it: polygons, each with an outer ring and holes, which run as they like.
struct Shape(Vec<Vec<Vec<(f64, f64)>>>);

impl ToRings for Shape {
    fn add_to(&self, rings: &mut PositionRings) -> Result<(), Refused> {
        for (outer, holes) in self.0.iter().filter_map(|polygon| polygon.split_first()) {
            rings.push_outer(outer.iter().copied())?;
            holes
                .iter()
                .try_for_each(|hole| rings.push_hole(hole.iter().copied()))?;
        }
        Ok(())
    }
}

fn rectangle((x0, y0): (f64, f64), (x1, y1): (f64, f64)) -> Vec<(f64, f64)> {
    vec![(x0, y0), (x1, y0), (x1, y1), (x0, y1)]
}

/// What a ring goes round counterclockwise.
fn area(ring: &[Position]) -> f64 {
    let product = |(from, to): (&Position, &Position)| from.x * to.y - to.x * from.y;
    let twice: f64 = ring.iter().zip(ring.iter().cycle().skip(1)).map(product).sum();
    twice / 2.0
}

fn main() -> Result<(), Box<dyn Error>> {
    let field = Shape(vec![vec![rectangle((0.5, 0.5), (9.5, 9.5))]]);
    let pond = vec![rectangle((2.5, 2.5), (6.5, 6.5)), rectangle((4.0, 4.0), (5.0, 5.0))];
    let water = Shape(vec![pond, vec![rectangle((8.0, 0.0), (9.0, 10.0))]]);

    let grid = Grid::fit(&(&field, &water))?;
    let dry = overlay_on(&grid, &field, &water, Operation::Difference, FillRule::NonZero)?;
    let mut areas = Vec::new();
    for polygon in &dry {
        areas.push(area(&grid.positions(polygon.outer())?));
        for hole in polygon.holes() {
            areas.push(area(&grid.positions(hole)?));
        }
    }
    areas.sort_by(f64::total_cmp);
    println!("{} square metres: {areas:?}", areas.iter().sum::<f64>());
    println!("{} bytes of well-known binary", dry.to_wkb(&grid, 0)?.len());
    Ok(())
}
