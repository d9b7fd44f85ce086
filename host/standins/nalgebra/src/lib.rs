//! What identify.rs takes from `nalgebra`: small f32 matrices, and Cholesky's factor and solve
//! operation by operation as document 01 states them. Each product is rounded and then added.

mod complex;

pub use complex::Complex;

use std::ops::{AddAssign, Index, Mul};

/// A matrix of `R` rows and `C` columns, kept column after column.
#[derive(Clone, Copy, Debug, PartialEq)]
pub struct SMatrix<T, const R: usize, const C: usize> {
    columns: [[T; R]; C],
}

/// A column of `D` entries.
pub type SVector<T, const D: usize> = SMatrix<T, D, 1>;

impl<const R: usize, const C: usize> SMatrix<f32, R, C> {
    pub fn zeros() -> Self {
        SMatrix {
            columns: [[0.0; R]; C],
        }
    }

    /// The matrix with these columns.
    pub fn from_columns_array(columns: [[f32; R]; C]) -> Self {
        SMatrix { columns }
    }

    /// The columns.
    pub fn columns_array(&self) -> &[[f32; R]; C] {
        &self.columns
    }

    pub fn transpose(&self) -> SMatrix<f32, C, R> {
        let mut columns = [[0.0; C]; R];
        for (row, column) in columns.iter_mut().enumerate() {
            for (entry, from) in column.iter_mut().zip(&self.columns) {
                *entry = from[row];
            }
        }
        SMatrix { columns }
    }

    /// The entries, column after column.
    pub fn iter(&self) -> impl Iterator<Item = &f32> {
        self.columns.iter().flatten()
    }
}

impl<const D: usize> SVector<f32, D> {
    /// The products' sum, left to right from 0.
    pub fn dot(&self, other: &Self) -> f32 {
        let mut sum = 0.0;
        for (a, b) in self.iter().zip(other.iter()) {
            sum += a * b;
        }
        sum
    }
}

impl<const D: usize> From<[f32; D]> for SVector<f32, D> {
    fn from(entries: [f32; D]) -> Self {
        SMatrix { columns: [entries] }
    }
}

impl<const D: usize> Index<usize> for SVector<f32, D> {
    type Output = f32;

    fn index(&self, row: usize) -> &f32 {
        &self.columns[0][row]
    }
}

impl<const R: usize, const C: usize> AddAssign for SMatrix<f32, R, C> {
    fn add_assign(&mut self, other: Self) {
        for (column, from) in self.columns.iter_mut().zip(&other.columns) {
            for (entry, added) in column.iter_mut().zip(from) {
                *entry += added;
            }
        }
    }
}

/// A column times a row: entry (i, j) is one product.
impl<const D: usize> Mul<SMatrix<f32, 1, D>> for &SVector<f32, D> {
    type Output = SMatrix<f32, D, D>;

    fn mul(self, row: SMatrix<f32, 1, D>) -> SMatrix<f32, D, D> {
        SMatrix {
            columns: row
                .columns
                .map(|[right]| self.columns[0].map(|left| left * right)),
        }
    }
}

impl<const D: usize> Mul<f32> for &SVector<f32, D> {
    type Output = SVector<f32, D>;

    fn mul(self, factor: f32) -> SVector<f32, D> {
        SMatrix {
            columns: [self.columns[0].map(|entry| entry * factor)],
        }
    }
}

/// Cholesky's factor L, the entries above its diagonal not read.
pub struct Cholesky<const D: usize> {
    columns: [[f32; D]; D],
}

impl<const D: usize> SMatrix<f32, D, D> {
    /// The factor; `None` where a diagonal is not above 0, a NaN too. The entries above the
    /// diagonal are not read.
    #[allow(clippy::needless_range_loop)] // i, j and k as document 01 writes them
    pub fn cholesky(&self) -> Option<Cholesky<D>> {
        // l[k][i] is L(i, k).
        let mut l = self.columns;
        for j in 0..D {
            for k in 0..j {
                let factor = -l[k][j];
                for i in j..D {
                    l[j][i] += factor * l[k][i];
                }
            }
            let above = l[j][j] > 0.0;
            if !above {
                return None;
            }
            let diagonal = libm::sqrtf(l[j][j]);
            l[j][j] = diagonal;
            for entry in &mut l[j][j + 1..] {
                *entry /= diagonal;
            }
        }
        Some(Cholesky { columns: l })
    }
}

impl<const D: usize> Cholesky<D> {
    /// L z = b from the first entry, then Lᵀ s = z from the last; each product is subtracted
    /// by itself, k rising.
    pub fn solve(&self, b: &SVector<f32, D>) -> SVector<f32, D> {
        let l = &self.columns;
        let mut s = b.columns[0];
        for i in 0..D {
            for k in 0..i {
                s[i] -= l[k][i] * s[k];
            }
            s[i] /= l[i][i];
        }
        for i in (0..D).rev() {
            for k in i + 1..D {
                s[i] -= l[i][k] * s[k];
            }
            s[i] /= l[i][i];
        }
        SMatrix { columns: [s] }
    }
}

#[cfg(test)]
mod tests {
    use super::*;

    #[test]
    fn a_factor_of_whole_numbers_is_exact() {
        // L = [2; 1 3; -1 2 1], L·Lᵀ and the solution are whole.
        let a = SMatrix::from_columns_array([[4.0, 2.0, -2.0], [2.0, 10.0, 5.0], [-2.0, 5.0, 6.0]]);
        let factor = a.cholesky().expect("a factor");
        assert_eq!(factor.columns[0], [2.0, 1.0, -1.0]);
        assert_eq!(factor.columns[1][1..], [3.0, 2.0]);
        assert_eq!(factor.columns[2][2], 1.0);
        let solution = factor.solve(&SVector::from([2.0, 37.0, 26.0]));
        let x = [solution[0], solution[1], solution[2]];
        assert_eq!(x, [1.0, 2.0, 3.0]);
    }

    #[test]
    fn a_diagonal_not_above_0_gives_no_factor() {
        for diagonal in [0.0, -1.0, f32::NAN] {
            let a = SMatrix::from_columns_array([[1.0, 0.0], [0.0, diagonal]]);
            assert!(a.cholesky().is_none());
        }
        let infinite = SMatrix::from_columns_array([[f32::INFINITY, 0.0], [0.0, 1.0]]);
        assert!(infinite.cholesky().is_some());
    }

    #[test]
    fn the_upper_half_is_not_read() {
        let a = SMatrix::from_columns_array([[4.0, 2.0], [f32::NAN, 10.0]]);
        let solution = a
            .cholesky()
            .expect("a factor")
            .solve(&SVector::from([8.0, 22.0]));
        assert_eq!([solution[0], solution[1]], [1.0, 2.0]);
    }
}
