//! Stands in for the `profiling` crate, of which the Rust source uses one attribute.
#![forbid(unsafe_code)]

use proc_macro::TokenStream;

/// `#[profiling::function]`: hands the function back as it came.
#[proc_macro_attribute]
pub fn function(_arguments: TokenStream, item: TokenStream) -> TokenStream {
    item
}
