//! Wrong copies of paper.rs, written by build.rs from mutations.txt: of each its name, what is wrong, and its calls.

use calls::Calls;

include!(concat!(env!("OUT_DIR"), "/wrong.rs"));
