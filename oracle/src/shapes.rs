//! What the original's shape.rs and utils.rs make of some grids, in the form that the program crate `show_shapes` prints: its stored output.
use crate::shape::{Coord, Shape, MIRROR_TRANSFORMS, TRANSFORMS};
use crate::utils::{coord_iterator, AxisOrder};

fn shape(a: i32, b: i32, c: i32, cells: &str) -> Shape {
    Shape::new(cells.bytes().map(|x| x == b'1').collect(), Coord(a, b, c))
}

fn text(s: &Shape) -> String {
    let d = s.dims();
    let cells: String = s.data.iter().map(|&x| if x { '1' } else { '0' }).collect();
    format!(" {} {} {} {}", d.0, d.1, d.2, cells)
}

/// Document 01: the longest side is compared first; of equal sides, z before y before x. (`plan_axis_order` is private to fast.rs.)
fn plan_axis_order(s: &Shape) -> AxisOrder {
    let d = s.dims();
    let mut axes = [(d.0, 0), (d.1, 1), (d.2, 2)];
    axes.sort();
    axes.reverse();
    AxisOrder::new(axes[0].1, axes[1].1, axes[2].1)
}

fn show(s: &Shape) {
    let maps = || TRANSFORMS.iter().chain(MIRROR_TRANSFORMS.iter());
    for (n, &m) in maps().enumerate() {
        println!("map {}{}", n, text(&s.apply_transform(m)));
    }
    let order = plan_axis_order(s);
    for v in s.enumerate_transforms() {
        let o = v.origin(&order);
        println!("variant {} {} {}{}", o.0, o.1, o.2, text(&v));
    }
    let kept: String = maps().enumerate().filter(|(_, &m)| s.apply_transform(m) == *s).map(|(n, _)| format!(" {}", n)).collect();
    println!("symmetries{}", kept);
    let mut coords: Vec<Coord> = coord_iterator(s).collect();
    coords.sort_by(|a, b| order.compare(a, b));
    let d = s.dims();
    let places: String = coords.iter().map(|u| format!(" {}", (u.0 * d.1 + u.1) * d.2 + u.2)).collect();
    println!("scan{}", places);
}

fn compare(s: &Shape, t: &Shape) {
    let word = |a: Shape, b: Shape| match a.cmp(&b) {
        std::cmp::Ordering::Less => "less",
        std::cmp::Ordering::Equal => "equal",
        std::cmp::Ordering::Greater => "greater",
    };
    println!("kinds {} {}", word(s.normalize(), t.normalize()), word(s.mirror().normalize(), t.normalize()));
}

pub fn print_all() {
    let (one, domino, corner) = ("1", "11", "1110");
    let (handed, partner, apart) = ("11100100", "11100010", "101");
    let (hollow, row, mixed) = ("111101111", "1110", "110100100010010010000001");
    for s in [
        shape(1, 1, 1, one),
        shape(1, 1, 2, domino),
        shape(1, 2, 2, corner),
        shape(2, 2, 2, handed),
        shape(2, 2, 2, partner),
        shape(1, 1, 3, apart),
        shape(1, 3, 3, hollow),
        shape(1, 1, 4, row),
        shape(2, 3, 4, mixed),
    ] {
        show(&s);
    }
    compare(&shape(1, 1, 1, one), &shape(1, 1, 2, domino));
    compare(&shape(1, 1, 2, domino), &shape(2, 1, 1, domino));
    compare(&shape(1, 2, 2, corner), &shape(2, 2, 1, corner));
    compare(&shape(2, 2, 2, handed), &shape(2, 2, 2, partner));
    compare(&shape(2, 2, 2, partner), &shape(2, 2, 2, handed));
    compare(&shape(2, 2, 2, handed), &shape(2, 2, 2, handed));
    compare(&shape(1, 3, 3, hollow), &shape(3, 1, 3, hollow));
    compare(&shape(1, 1, 3, apart), &shape(1, 1, 4, row));
    compare(&shape(2, 3, 4, mixed), &shape(4, 3, 2, mixed));
}
