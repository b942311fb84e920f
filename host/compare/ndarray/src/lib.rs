//! A stand-in for the crate ndarray, which Debian 12 does not have: it stores lists in rows and
//! does nothing else. It has what the compared text of the Rust calls, under the same names.

use std::sync::Arc;

/// The number of dimensions, as a type.
#[derive(Clone, Debug)]
pub struct One;
#[derive(Clone, Debug)]
pub struct Two;

/// An owned list with its shape.
#[derive(Clone, Debug)]
pub struct Array<T, D> {
    items: Vec<T>,
    columns: usize,
    dimension: std::marker::PhantomData<D>,
}

/// A shared list with its shape.
#[derive(Clone, Debug)]
pub struct ArcArray<T, D> {
    items: Arc<Vec<T>>,
    columns: usize,
    dimension: std::marker::PhantomData<D>,
}

pub type Array1<T> = Array<T, One>;
pub type Array2<T> = Array<T, Two>;
pub type ArcArray1<T> = ArcArray<T, One>;
pub type ArcArray2<T> = ArcArray<T, Two>;

impl<T: Clone, D> Array<T, D> {
    pub fn to_shared(&self) -> ArcArray<T, D> {
        ArcArray {
            items: Arc::new(self.items.clone()),
            columns: self.columns,
            dimension: self.dimension,
        }
    }

    pub fn into_shared(self) -> ArcArray<T, D> {
        ArcArray {
            items: Arc::new(self.items),
            columns: self.columns,
            dimension: self.dimension,
        }
    }
}

impl<T> Array<T, One> {
    pub fn from_vec(items: Vec<T>) -> Self {
        Array {
            items,
            columns: 1,
            dimension: std::marker::PhantomData,
        }
    }
}

impl<T> Array<T, Two> {
    /// Fails, as ndarray does, where the list does not fill the shape.
    pub fn from_shape_vec(shape: impl Into<[usize; 2]>, items: Vec<T>) -> Result<Self, String> {
        let [rows, columns] = shape.into();
        if rows * columns != items.len() {
            return Err(format!("{} items in {rows} rows of {columns}", items.len()));
        }
        Ok(Array {
            items,
            columns,
            dimension: std::marker::PhantomData,
        })
    }
}

pub fn arr2<T: Clone, const N: usize>(rows: &[[T; N]]) -> Array2<T> {
    Array {
        items: rows.concat(),
        columns: N,
        dimension: std::marker::PhantomData,
    }
}

impl<T, D> ArcArray<T, D> {
    pub fn items(&self) -> &[T] {
        &self.items
    }

    pub fn columns(&self) -> usize {
        self.columns
    }
}

/// Lent rows.
#[derive(Clone, Copy)]
pub struct ArrayView2<'a, T> {
    items: &'a [T],
    columns: usize,
}

/// One lent row.
pub struct ArrayView1<'a, T>(&'a [T]);

impl<'a, T> ArrayView2<'a, T> {
    pub fn from_rows(items: &'a [T], columns: usize) -> Self {
        ArrayView2 { items, columns }
    }

    pub fn row(&self, i: usize) -> ArrayView1<'a, T> {
        let from = i.checked_mul(self.columns).expect("a row past the end");
        ArrayView1(&self.items[from..][..self.columns])
    }
}

impl<'a, T> ArrayView1<'a, T> {
    pub fn to_slice(&self) -> Option<&'a [T]> {
        Some(self.0)
    }
}

pub mod prelude {
    pub use super::{Array, Array1, Array2, arr2};
}
