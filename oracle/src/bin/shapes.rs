//! What the original makes of some grids: the stored output of the program crate `show_shapes`.
fn main() {
    oracle::shapes::print_all();
}
