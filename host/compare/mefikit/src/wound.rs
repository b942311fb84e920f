
/// Not the Rust's: what `reorient` does with one cell, as `reorient_owned` does it block by block.
pub fn wound(cell: Element, coords: nd::ArrayView2<f64>, space_dim: usize) -> Vec<usize> {
    use ElementType::{PGON, PHED, PLINE};
    let length = cell.connectivity().len();
    let one = std::iter::once(cell);
    if let PLINE | PGON | PHED = cell.element_type() {
        return poly_parts(one, coords, space_dim, 1).0;
    }
    regular_conn(one, space_dim, 1, length).items().to_vec()
}

/// Not the Rust's: the one of its functions that winds a cell, without the lists of a mesh around it.
pub fn wound_alone(cell: Element, coords: nd::ArrayView2<f64>, space_dim: usize) -> Vec<usize> {
    if cell.element_type() == ElementType::PHED && space_dim == 3 {
        return reoriented_phed(&cell, coords);
    }
    reoriented_row(&cell, space_dim)
}
