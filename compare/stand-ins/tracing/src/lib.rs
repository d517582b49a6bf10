//! Stands in for `tracing`: an instrumented function is the function itself.
use proc_macro::TokenStream;

#[proc_macro_attribute]
pub fn instrument(_words: TokenStream, item: TokenStream) -> TokenStream {
    item
}
