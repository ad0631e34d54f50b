// Stands in for the crate `num_complex`. No recorded function asks for it.
#[derive(Clone, Copy, PartialEq)]
#[repr(C)]
pub struct Complex<T> {
    pub re: T,
    pub im: T,
}

impl<T> Complex<T> {
    pub const fn new(re: T, im: T) -> Complex<T> {
        Complex { re, im }
    }
}

impl<T> std::ops::Mul for Complex<T> {
    type Output = Complex<T>;
    fn mul(self, _: Complex<T>) -> Complex<T> {
        unimplemented!()
    }
}

impl<T> std::ops::Div for Complex<T> {
    type Output = Complex<T>;
    fn div(self, _: Complex<T>) -> Complex<T> {
        unimplemented!()
    }
}

macro_rules! unary {
    ($($name:ident)*) => { $(pub fn $name(self) -> Complex<f64> { unimplemented!() })* };
}

impl Complex<f64> {
    pub const ZERO: Complex<f64> = Complex::new(0.0, 0.0);
    pub const ONE: Complex<f64> = Complex::new(1.0, 0.0);

    unary!(sin cos sinh cosh asin acos atan asinh acosh atanh cbrt exp ln);

    pub fn powc(self, _: Complex<f64>) -> Complex<f64> {
        unimplemented!()
    }

    pub fn arg(self) -> f64 {
        unimplemented!()
    }
}
