//! The Rust that the library is compared with. Its text is compiled unchanged from where it lies
//! (see build.rs); what stands here are only the containers that the text asks for.

#![allow(dead_code, unused_imports)]

pub mod mesh;

include!(concat!(env!("OUT_DIR"), "/rust.rs"));
