//! The choice of a granule.

/// A function for the granule of a number. A number that names none is refused by either.
macro_rules! of_granule {
    ($number:expr, $function:ident($($argument:expr),*)) => {
        match $number {
            0x4000 => $function::<14>($($argument),*),
            _ => $function::<12>($($argument),*),
        }
    };
}
