//! Stands in for bevy's derive: it accepts the attribute and adds nothing.

use proc_macro::TokenStream;

/// Adds nothing to the type.
#[proc_macro_derive(Reflect, attributes(reflect))]
pub fn reflect(_item: TokenStream) -> TokenStream {
    TokenStream::new()
}
