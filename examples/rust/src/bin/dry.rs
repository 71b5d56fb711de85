//! The land that no water covers.

use itree::{overlay, FillRule, Operation, Point};

fn main() {
    let square = |from: i32, to: i32| [(from, from), (to, from), (to, to), (from, to)].map(Point::from);
    let (land, pond) = ([square(0, 9)], [square(3, 6)]);
    let dry = overlay(&land, &pond, Operation::Difference, FillRule::NonZero);
    println!("{} hole", dry.expect("memory").polygon(0).holes().count());
}
