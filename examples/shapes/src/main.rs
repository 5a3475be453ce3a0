mod point;

use point::Point;

fn main() {
    println!("{:?}", Point { x: 1, y: 2 });
}
