//! Cuts a wedge and prints its tetrahedra, then says why a wedge of five nodes is refused.
use tallyspool::{to_simplexes, Kind, Refusal};

fn main() -> Result<(), Refusal> {
    for tetrahedron in to_simplexes(Kind::Wedge6, &[10, 8, 7, 9, 11, 12])?.iter() {
        println!("{tetrahedron:?}");
    }
    if let Err(refusal) = to_simplexes(Kind::Wedge6, &[10, 8, 7, 9, 11]) {
        println!("refused by {}: {refusal}", refusal.number());
    }
    Ok(())
}
