//! The other program: document 01 implemented once more, on trees, with the requests of 02 that have
//! landed.
//!
//! It is written from them alone and takes the plainest road everywhere: bytes are decoded into a
//! tree, the rule is applied to the tree, and the tree is encoded again. The proved library works
//! on the bytes in place; where the two differ on any input, one of them is wrong.
//!
//! Beside it stands what compares the two: `library` calls the proved one, `both` calls both.
//!
//! "01" in a comment is that document, followed by the heading the rule stands under; "02" is that of the
//! change requests, followed by the request's number.

pub mod both;
pub mod calls;
pub mod check;
pub mod codec;
pub mod examples;
pub mod extremes;
pub mod forecast;
pub mod generate;
pub mod lent;
pub mod library;
pub mod line;
pub mod random;
pub mod read_back;
pub mod run;
pub mod stack;
pub mod substitute;
pub mod translate;
pub mod tree;
