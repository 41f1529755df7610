//! Replays rows, as `tests/rows` has them, from standard input, and prints `ok` for each.
//! It panics at the first that doesn't hold.

#[path = "../tests/rows.rs"]
mod rows;

fn main() {
    for row in std::io::stdin().lines() {
        rows::replay(&row.expect("a row"));
        println!("ok");
    }
}
