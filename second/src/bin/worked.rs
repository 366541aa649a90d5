//! Prints the worked examples, one on a line.
#![forbid(unsafe_code)]

fn main() {
    for line in second::examples::all() {
        println!("{line}");
    }
}
