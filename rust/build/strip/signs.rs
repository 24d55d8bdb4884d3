/// A number, whose bits can be read as one with or without a sign. The methods of numbers that do
/// this came with Rust 1.87.
pub(crate) struct Bits<T>(pub(crate) T);

macro_rules! same_bits {
    ($($signed:ident $unsigned:ident;)*) => {
        $(
            impl Bits<$signed> {
                #[inline(always)]
                pub(crate) const fn into_unsigned(self) -> $unsigned {
                    self.0 as $unsigned
                }
            }

            impl Bits<$unsigned> {
                #[inline(always)]
                pub(crate) const fn into_signed(self) -> $signed {
                    self.0 as $signed
                }
            }
        )*
    };
}
same_bits! { i32 u32; i64 u64; }
