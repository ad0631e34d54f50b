// Stands in for the crate `spec_math`. No recorded function asks for it.
pub mod cephes64 {
    macro_rules! one {
        ($($name:ident)*) => { $(pub fn $name(_: f64) -> f64 { unimplemented!() })* };
    }
    macro_rules! two {
        ($($name:ident)*) => { $(pub fn $name(_: f64) -> (f64, f64) { unimplemented!() })* };
    }
    one!(gamma lgam erf erfc);
    two!(sici shichi);
}
