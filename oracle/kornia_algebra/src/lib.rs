//! Stands in for kornia-algebra: glam's types behind its names, and rotations. A rotation is a unit quaternion, its exponential goes by half
//! angles, and the right Jacobian by the axis: other formulas than the proved code's, so that agreement says something.
use glam::{DMat3, DVec3};
use std::ops::{Add, AddAssign, Deref, Div, Mul, Sub, SubAssign};

#[derive(Debug, Clone, Copy, PartialEq)]
pub struct Vec3F64(pub DVec3);

impl Vec3F64 {
    pub const ZERO: Self = Self::new(0.0, 0.0, 0.0);

    pub const fn new(x: f64, y: f64, z: f64) -> Self {
        Self(DVec3::new(x, y, z))
    }

    pub fn from_array([x, y, z]: [f64; 3]) -> Self {
        Self::new(x, y, z)
    }

    pub fn dot(self, v: Self) -> f64 {
        self.0.dot(v.0)
    }
}

impl Deref for Vec3F64 {
    type Target = DVec3;
    fn deref(&self) -> &DVec3 {
        &self.0
    }
}

#[derive(Debug, Clone, Copy, PartialEq)]
pub struct Mat3F64(pub DMat3);

impl Mat3F64 {
    pub const ZERO: Self = Self::from_diagonal(Vec3F64::ZERO);
    pub const IDENTITY: Self = Self::from_diagonal(Vec3F64::new(1.0, 1.0, 1.0));

    pub const fn from_cols(x: Vec3F64, y: Vec3F64, z: Vec3F64) -> Self {
        Self(DMat3::from_cols(x.0, y.0, z.0))
    }

    pub const fn from_diagonal(d: Vec3F64) -> Self {
        Self(DMat3::from_cols(DVec3::new(d.0.x, 0.0, 0.0), DVec3::new(0.0, d.0.y, 0.0), DVec3::new(0.0, 0.0, d.0.z)))
    }

    pub fn from_cols_array(m: &[f64; 9]) -> Self {
        Self(DMat3::from_cols_array(m))
    }

    pub fn transpose(&self) -> Self {
        Self(self.0.transpose())
    }

    pub fn inverse(&self) -> Self {
        Self(self.0.inverse())
    }
}

impl Deref for Mat3F64 {
    type Target = DMat3;
    fn deref(&self) -> &DMat3 {
        &self.0
    }
}

macro_rules! operator {
    ($of:ty, $trait:ident, $name:ident, $by:ty, $gives:ty, $f:expr) => {
        impl $trait<$by> for $of {
            type Output = $gives;
            fn $name(self, other: $by) -> $gives {
                let f: fn($of, $by) -> $gives = $f;
                f(self, other)
            }
        }
    };
}

operator!(Vec3F64, Add, add, Vec3F64, Vec3F64, |a, b| Vec3F64(a.0 + b.0));
operator!(Vec3F64, Sub, sub, Vec3F64, Vec3F64, |a, b| Vec3F64(a.0 - b.0));
operator!(Vec3F64, Mul, mul, f64, Vec3F64, |a, s| Vec3F64(a.0 * s));
operator!(Vec3F64, Div, div, f64, Vec3F64, |a, s| Vec3F64(a.0 / s));
operator!(Mat3F64, Add, add, Mat3F64, Mat3F64, |a, b| Mat3F64(a.add_mat3(&b)));
operator!(Mat3F64, Sub, sub, Mat3F64, Mat3F64, |a, b| Mat3F64(a.sub_mat3(&b)));
operator!(Mat3F64, Mul, mul, Mat3F64, Mat3F64, |a, b| Mat3F64(a.mul_mat3(&b)));
operator!(Mat3F64, Mul, mul, Vec3F64, Vec3F64, |a, v| Vec3F64(a.mul_vec3(v.0)));
operator!(Mat3F64, Mul, mul, f64, Mat3F64, |a, s| Mat3F64(a.mul_scalar(s)));

impl AddAssign for Vec3F64 {
    fn add_assign(&mut self, v: Self) {
        *self = *self + v;
    }
}

impl AddAssign for Mat3F64 {
    fn add_assign(&mut self, m: Self) {
        *self = *self + m;
    }
}

impl SubAssign for Mat3F64 {
    fn sub_assign(&mut self, m: Self) {
        *self = *self - m;
    }
}

/// w + xi + yj + zk, of length 1.
#[derive(Debug, Clone, Copy, PartialEq)]
pub struct SO3F64 {
    w: f64,
    v: DVec3,
}

const LEFT_OUT: &str = "only residuals use it, and they are left out";

impl SO3F64 {
    pub fn exp(omega: Vec3F64) -> Self {
        let theta = omega.dot(omega).sqrt();
        if theta == 0.0 {
            return Self { w: 1.0, v: DVec3::new(0.0, 0.0, 0.0) };
        }
        let (s, c) = (0.5 * theta).sin_cos();
        Self { w: c, v: omega.0 * (s / theta) }
    }

    pub fn matrix(&self) -> Mat3F64 {
        let (w, DVec3 { x, y, z }) = (self.w, self.v);
        Mat3F64::from_cols_array(&[
            1.0 - 2.0 * (y * y + z * z),
            2.0 * (x * y + w * z),
            2.0 * (x * z - w * y),
            2.0 * (x * y - w * z),
            1.0 - 2.0 * (x * x + z * z),
            2.0 * (y * z + w * x),
            2.0 * (x * z + w * y),
            2.0 * (y * z - w * x),
            1.0 - 2.0 * (x * x + y * y),
        ])
    }

    pub fn hat(v: Vec3F64) -> Mat3F64 {
        Mat3F64::from_cols_array(&[0.0, v.z, -v.y, -v.z, 0.0, v.x, v.y, -v.x, 0.0])
    }

    /// (sin θ/θ)·I + (1 − sin θ/θ)·a·aᵀ − ((1 − cos θ)/θ)·hat(a), with a the axis, 1 − cos θ being 2·sin²(θ/2).
    pub fn right_jacobian(omega: Vec3F64) -> Mat3F64 {
        let theta = omega.dot(omega).sqrt();
        if theta == 0.0 {
            return Mat3F64::IDENTITY;
        }
        let a = omega / theta;
        let (along, half) = (theta.sin() / theta, (0.5 * theta).sin());
        let outer = Mat3F64::from_cols(a * a.x, a * a.y, a * a.z);
        Mat3F64::IDENTITY * along + outer * (1.0 - along) - Self::hat(a) * (2.0 * half * half / theta)
    }

    pub fn from_matrix(_: &Mat3F64) -> Self {
        unimplemented!("{LEFT_OUT}")
    }

    pub fn log(&self) -> Vec3F64 {
        unimplemented!("{LEFT_OUT}")
    }

    pub fn left_jacobian(_: Vec3F64) -> Mat3F64 {
        unimplemented!("{LEFT_OUT}")
    }
}
