//! Stands in for glam: vectors of three and matrices of nine f64, with what the Rust uses of them.
use std::ops::{Add, Div, Mul, Sub};

#[derive(Debug, Clone, Copy, PartialEq)]
pub struct DVec3 {
    pub x: f64,
    pub y: f64,
    pub z: f64,
}

impl DVec3 {
    pub const fn new(x: f64, y: f64, z: f64) -> Self {
        Self { x, y, z }
    }

    pub fn dot(self, v: Self) -> f64 {
        self.x * v.x + self.y * v.y + self.z * v.z
    }

    pub fn cross(self, v: Self) -> Self {
        Self::new(self.y * v.z - v.y * self.z, self.z * v.x - v.z * self.x, self.x * v.y - v.x * self.y)
    }

    pub fn normalize(self) -> Self {
        self * (1.0 / self.dot(self).sqrt())
    }

    pub fn to_array(self) -> [f64; 3] {
        [self.x, self.y, self.z]
    }
}

impl Add for DVec3 {
    type Output = Self;
    fn add(self, v: Self) -> Self {
        Self::new(self.x + v.x, self.y + v.y, self.z + v.z)
    }
}

impl Sub for DVec3 {
    type Output = Self;
    fn sub(self, v: Self) -> Self {
        Self::new(self.x - v.x, self.y - v.y, self.z - v.z)
    }
}

impl Mul<f64> for DVec3 {
    type Output = Self;
    fn mul(self, s: f64) -> Self {
        Self::new(self.x * s, self.y * s, self.z * s)
    }
}

impl Div<f64> for DVec3 {
    type Output = Self;
    fn div(self, s: f64) -> Self {
        Self::new(self.x / s, self.y / s, self.z / s)
    }
}

/// By columns.
#[derive(Debug, Clone, Copy, PartialEq)]
pub struct DMat3 {
    pub cols: [DVec3; 3],
}

impl DMat3 {
    pub const fn from_cols(x: DVec3, y: DVec3, z: DVec3) -> Self {
        Self { cols: [x, y, z] }
    }

    pub fn from_cols_array(m: &[f64; 9]) -> Self {
        Self::from_cols(DVec3::new(m[0], m[1], m[2]), DVec3::new(m[3], m[4], m[5]), DVec3::new(m[6], m[7], m[8]))
    }

    pub fn to_cols_array_2d(&self) -> [[f64; 3]; 3] {
        self.cols.map(DVec3::to_array)
    }

    pub fn to_cols_array(&self) -> [f64; 9] {
        let m = self.to_cols_array_2d();
        std::array::from_fn(|i| m[i / 3][i % 3])
    }

    pub fn transpose(&self) -> Self {
        let m = self.to_cols_array();
        Self::from_cols_array(&std::array::from_fn(|i| m[i % 3 * 3 + i / 3]))
    }

    pub fn mul_vec3(&self, v: DVec3) -> DVec3 {
        self.cols[0] * v.x + self.cols[1] * v.y + self.cols[2] * v.z
    }

    pub fn mul_mat3(&self, m: &Self) -> Self {
        Self { cols: m.cols.map(|c| self.mul_vec3(c)) }
    }

    pub fn mul_scalar(&self, s: f64) -> Self {
        Self { cols: self.cols.map(|c| c * s) }
    }

    pub fn add_mat3(&self, m: &Self) -> Self {
        Self { cols: std::array::from_fn(|i| self.cols[i] + m.cols[i]) }
    }

    pub fn sub_mat3(&self, m: &Self) -> Self {
        Self { cols: std::array::from_fn(|i| self.cols[i] - m.cols[i]) }
    }

    pub fn is_finite(&self) -> bool {
        self.to_cols_array().iter().all(|v| v.is_finite())
    }

    pub fn determinant(&self) -> f64 {
        let [x, y, z] = self.cols;
        z.dot(x.cross(y))
    }

    /// By cross products, unlike the proved code.
    pub fn inverse(&self) -> Self {
        let [x, y, z] = self.cols;
        let rows = Self::from_cols(y.cross(z), z.cross(x), x.cross(y));
        rows.mul_scalar(1.0 / self.determinant()).transpose()
    }
}
