//! Prints what the label factory's labels cost with homes that crowd and with
//! homes that spread, and draws their tables: 100, 200, 300 and so on in 1,025
//! cells.

use reference::generate::factory::{crowding, picture, table, FITTED, GOLDEN, PRIME};
use reference::layout::Homes;

/// A row of the table of numbers.
fn row(homes: Homes, labels: usize) {
    let seen = crowding(homes, labels);
    let mean = seen.ways as f64 / labels as f64;
    println!(
        "| {labels} | {}, {} | {} | {mean:.2} | {} | {} | {} | {} |",
        homes.a, homes.b, seen.homes, seen.longest_way, seen.put_in, seen.look_up, seen.take_out
    );
}

fn main() {
    println!(
        "| labels | a, b | homes | mean way | longest way | \
         turns to put all in | to look all up | to take all out |\n\
         |---|---|---|---|---|---|---|---|"
    );
    for labels in [512, 900, 1000, 1024] {
        row(Homes::PLAIN, labels);
        row(GOLDEN, labels);
    }
    row(PRIME, 900);
    row(FITTED, 900);
    for homes in [Homes::PLAIN, GOLDEN] {
        println!("\n900 labels, a {}, b {}:\n", homes.a, homes.b);
        print!("{}", picture(homes, &table(homes, 900), 100));
    }
}
