//! Stands in for kornia-3d: a pose as two fields, and the names of the Huber kernel. What only residuals use is left out.
pub mod pose {
    use kornia_algebra::{Mat3F64, Vec3F64};

    #[derive(Debug, Clone, Copy, PartialEq)]
    pub struct Pose3d {
        pub rotation: Mat3F64,
        pub translation: Vec3F64,
    }

    impl Pose3d {
        pub const IDENTITY: Self = Self::new(Mat3F64::IDENTITY, Vec3F64::ZERO);

        pub const fn new(rotation: Mat3F64, translation: Vec3F64) -> Self {
            Self { rotation, translation }
        }

        pub fn inverse(&self) -> Self {
            unimplemented!("only residuals use it, and they are left out")
        }

        pub fn compose(&self, _: &Self) -> Self {
            unimplemented!("only residuals use it, and they are left out")
        }
    }
}

pub mod ransac {
    pub trait RobustKernel {
        fn weight(&self, squared: f64, limit: f64) -> f64;
    }

    pub struct HuberKernel;

    impl RobustKernel for HuberKernel {
        fn weight(&self, _: f64, _: f64) -> f64 {
            unimplemented!("Huber weights are left out")
        }
    }
}
