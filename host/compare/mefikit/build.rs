//! Writes `rust.rs`, which has the Rust's text, unchanged: three files whole, by their paths, and
//! from four more the functions of the windings, cut out one by one.

use std::path::{Path, PathBuf};
use std::{env, fs};

/// The file, then the first words of each item that is cut out of it.
const WINDING: [(&str, &[&str]); 2] = [
    ("geometry/polygon.rs", &["pub(crate) fn signed_area2("]),
    (
        "geometry/polyhedron.rs",
        &[
            "pub(crate) fn face_plane(",
            "fn triple_product(",
            "const WEDGE6_TET:",
            "const HEX8_TET:",
            "pub(crate) fn tet_volume(",
            "pub(crate) fn wedge_volume(",
            "pub(crate) fn hex_volume(",
        ],
    ),
];

const METHODS: [&str; 4] = [
    "fn coord2_ref(",
    "fn coord3_ref(",
    "fn coords2(",
    "fn oriented_positive_connectivity(",
];

const REORIENT: [&str; 5] = [
    "fn fixable(",
    "fn reoriented_row(",
    "fn reoriented_phed(",
    "fn poly_parts<",
    "fn regular_conn<",
];

fn main() {
    println!("cargo:rerun-if-env-changed=TALLYSPOOL_RUST_SRC");
    let root = PathBuf::from(env::var("CARGO_MANIFEST_DIR").unwrap()).join("../../..");
    let given =
        env::var("TALLYSPOOL_RUST_SRC").map_or(root.join("../shared/docs/src"), |d| root.join(d));
    let src = fs::canonicalize(given.join("crates/mefikit/src")).unwrap_or_else(|e| {
        panic!(
            "no Rust to compare with at {}: {e}; set TALLYSPOOL_RUST_SRC",
            given.display()
        )
    });

    let mut text = String::new();
    text += "pub mod element_traits {\n";
    text += &whole(
        &src,
        "element_traits/element_topo.rs",
        "pub mod element_topo;",
    );
    text += &whole(&src, "element_traits/utils.rs", "pub mod utils;");
    text += "pub use element_topo::ElementTopo;\npub use utils::SortedVecKey;\n";
    text += "use crate::geometry::*;\nuse crate::mesh::{ElementLike, ElementType};\n";
    text += "pub trait ElementGeo<'a>: ElementLike<'a> + ElementTopo<'a> {\n";
    text += &cut(&src, "element_traits/element_geo.rs", &METHODS);
    text += "}\nimpl<'a, T> ElementGeo<'a> for T where T: ElementLike<'a> {}\n}\n";

    text += "pub mod geometry {\n";
    for (file, heads) in WINDING {
        text += &cut(&src, file, heads);
    }
    text += "}\n";

    text += &whole(&src, "mesh/dimension.rs", "pub mod dimension;");

    text += "pub mod reorient {\n";
    text +=
        "use crate::element_traits::{ElementGeo, ElementTopo};\nuse crate::geometry::face_plane;\n";
    text += "use crate::mesh::{Dimension, Element, ElementLike, ElementType};\n";
    text += "use ndarray as nd;\nuse rustc_hash::FxHashMap;\n";
    text += &cut(&src, "tools/reorient.rs", &REORIENT);
    text += include_str!("src/wound.rs");
    text += "}\n";

    let out = PathBuf::from(env::var("OUT_DIR").unwrap()).join("rust.rs");
    fs::write(out, text).unwrap();
}

/// A whole file as a module.
fn whole(src: &Path, file: &str, module: &str) -> String {
    let path = src.join(file);
    println!("cargo:rerun-if-changed={}", path.display());
    format!("#[path = {:?}]\n{module}\n", path.display().to_string())
}

/// The items that begin so, each to the line that closes it at its own depth.
fn cut(src: &Path, file: &str, heads: &[&str]) -> String {
    let path = src.join(file);
    println!("cargo:rerun-if-changed={}", path.display());
    let text = fs::read_to_string(&path).unwrap();
    let lines: Vec<&str> = text.lines().collect();
    heads.iter().map(|head| item(&lines, head)).collect()
}

fn item(lines: &[&str], head: &str) -> String {
    let mut found = (0..lines.len()).filter(|&i| lines[i].trim_start().starts_with(head));
    let first = found
        .next()
        .unwrap_or_else(|| panic!("no `{head}` in the Rust"));
    assert!(found.next().is_none(), "`{head}` stands twice in the Rust");
    let depth = &lines[first][..lines[first].len() - lines[first].trim_start().len()];
    let closes = |line: &str| line == format!("{depth}}}") || line == format!("{depth}];");
    let one_line = lines[first].ends_with(';');
    let last = if one_line {
        first
    } else {
        (first..).find(|&i| closes(lines[i])).unwrap()
    };
    lines[first..=last].join("\n") + "\n"
}
