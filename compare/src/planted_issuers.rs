//! Bags with the errors that tempt, for the stand-ins of the tests.

use crate::record::{ANY, NOBODY};
use crate::truth::takes;

pub fn any_issuer(_: &'static str, _: u16, _: u16) -> bool {
    true
}

pub fn any_for_a_match(name: &'static str, asked: u16, issuer: u16) -> bool {
    name == "match" || takes(name, asked, issuer)
}

pub fn any_for_a_comparison(name: &'static str, asked: u16, issuer: u16) -> bool {
    name == "comparison" || takes(name, asked, issuer)
}

pub fn any_for_an_attribute(name: &'static str, asked: u16, issuer: u16) -> bool {
    name == "attribute" || takes(name, asked, issuer)
}

/// Nobody's values for every issuer.
pub fn nobodys_too(name: &'static str, asked: u16, issuer: u16) -> bool {
    issuer == NOBODY || takes(name, asked, issuer)
}

/// Nobody's values alone for issuer 0.
pub fn equal_alone(_: &'static str, asked: u16, issuer: u16) -> bool {
    asked == issuer
}

/// For issuer 0 those of every issuer, but not nobody's.
pub fn somebodys_alone(_: &'static str, asked: u16, issuer: u16) -> bool {
    (asked == ANY && issuer != NOBODY) || (asked != ANY && asked == issuer)
}

pub fn by_the_first_byte(_: &'static str, asked: u16, issuer: u16) -> bool {
    asked == ANY || asked >> 8 == issuer >> 8
}

pub fn by_the_second_byte(_: &'static str, asked: u16, issuer: u16) -> bool {
    asked == ANY || asked & 255 == issuer & 255
}

/// By all bits but the highest.
pub fn by_15_bits(_: &'static str, asked: u16, issuer: u16) -> bool {
    asked == ANY || asked << 1 == issuer << 1
}
