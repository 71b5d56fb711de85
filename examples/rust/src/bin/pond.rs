//! A field less a pond: its polygons, ring by ring.

use itree::{overlay, FillRule, Operation, Point, Refused};

fn print_ring(name: &str, ring: &[Point]) {
    let points: Vec<_> = ring.iter().map(|at| format!("({}, {})", at.x, at.y)).collect();
    println!("{name} {}", points.join(" "));
}

fn main() -> Result<(), Refused> {
    let field = [(0, 0), (9, 0), (9, 9), (0, 9)].map(Point::from);
    let pond = [(3, 3), (6, 3), (6, 6), (3, 6)].map(Point::from);
    let dry = overlay(&[field], &[pond], Operation::Difference, FillRule::NonZero)?;
    for polygon in &dry {
        print_ring("polygon", polygon.outer());
        polygon.holes().for_each(|hole| print_ring("hole", hole));
    }
    Ok(())
}
