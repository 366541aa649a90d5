//! Prints the cases to be tried on another implementation, one on a line.
#![forbid(unsafe_code)]

fn main() {
    for line in second::cases::all() {
        println!("{line}");
    }
}
