
/// The bench's door, which bench/run puts behind the Rust's lib.rs: what calls of each width work with, made once; the judge's door makes a convolution in each call.
pub mod made {
    use crate::*;

    pub type Bank<T> = Arc<dyn DwtExecutor<T> + Send + Sync>;
    pub type Plane<T> = Arc<dyn Dwt2DExecutor<T> + Send + Sync>;
    pub type Convolution<T> = Box<dyn Fn(&[T], &mut [T], &mut [T], &[T], isize) -> Result<(), OscletError>>;

    pub trait Made: Clone + Debug + 'static {
        fn bank(border: BorderMode, low: &[Self], high: &[Self]) -> Bank<Self>;
        fn plane(bank: Bank<Self>) -> Plane<Self>;
        fn convolution(border: BorderMode) -> Convolution<Self>;
    }

    macro_rules! made {
        ($($float:ty),*) => { $(impl Made for $float {
            fn bank(border: BorderMode, low: &[Self], high: &[Self]) -> Bank<Self> {
                oracle::bank(border, low, high)
            }

            fn plane(bank: Bank<Self>) -> Plane<Self> {
                Arc::new(Wavelet2DTransform { filter: bank, transpose: Self::transpositor() })
            }

            fn convolution(border: BorderMode) -> Convolution<Self> {
                let made = Self::make_convolution_1d(border);
                Box::new(move |line, out, scratch, kernel, centre| made.convolve(line, out, scratch, kernel, centre))
            }
        })* };
    }

    made!(f64, f32);
}
