//! Stand-ins for the two derive macros that thermostat.rs puts on its private `PersistedAttrs`.
//!
//! What a derive macro gives stands in the module of the type it is put on. So `ToTLV` also gives a child module with the
//! text of src/inside.rs: a child sees the private items of its parent, and the original need not be touched.

use proc_macro::{TokenStream, TokenTree};

#[proc_macro_derive(FromTLV)]
pub fn from_tlv(item: TokenStream) -> TokenStream {
    format!("impl crate::tlv::FromTLV for {} {{}}", name(item)).parse().unwrap()
}

#[proc_macro_derive(ToTLV)]
pub fn to_tlv(item: TokenStream) -> TokenStream {
    format!(
        "impl crate::tlv::ToTLV for {} {{}}
         pub(crate) mod inside {{ include!(concat!(env!(\"CARGO_MANIFEST_DIR\"), \"/src/inside.rs\")); }}",
        name(item)
    )
    .parse()
    .unwrap()
}

/// The word after `struct`.
fn name(item: TokenStream) -> TokenTree {
    let mut words = item.into_iter().skip_while(|word| word.to_string() != "struct");
    words.nth(1).expect("a struct")
}
