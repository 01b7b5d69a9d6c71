//! Stand-in for what the original names of `statrs`. Beta is left behind (document 01), so none of it is ever run.
pub mod distribution {
    pub struct Beta;

    impl Beta {
        pub fn new(_a: f64, _b: f64) -> Result<Beta, ()> {
            unreachable!("Beta is left behind")
        }
    }

    pub trait Continuous<K, T> {
        fn pdf(&self, x: K) -> T;
    }

    impl Continuous<f64, f64> for Beta {
        fn pdf(&self, _: f64) -> f64 {
            unreachable!("Beta is left behind")
        }
    }
}
