//! What stands for the proved leaves where their archive is missing.

macro_rules! missing {
    ($($name:ident($($given:ty),*) -> $told:ty;)*) => {
        $(
            /// Fails: the proved leaves are not linked.
            pub fn $name($(_: $given),*) -> $told {
                panic!(
                    "target/staticlib/libtest_leaves.a is missing: \
                     run `tools/build test_leaves` at the project's root, then this again"
                )
            }
        )*
    };
}

missing! {
    number(&[u8], &mut [i32]) -> u32;
    dyadic(u32, i32, i32, &mut [i32]) -> u32;
    monadic(u32, i32, &mut [i32]) -> u32;
    printed(i32, &mut [u8]) -> usize;
    check(&[u8], &mut [u32]) -> u32;
    sheet(&[i32], &[u8], &mut [i32], &mut [u8], &mut [u32]) -> u32;
    value(&[i32], &[i32], &[u8], usize, &mut [i32]) -> u32;
}
