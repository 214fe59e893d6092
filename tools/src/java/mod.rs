//! Tariffs in Java: class files as javac makes them (JVMS 4), translated into files of the box.
//!
//! It is a tool and isn't trusted: what it makes goes to the proved desk and the proved machine like any other file.

pub mod branches;
pub mod bytes;
pub mod classfile;
pub mod commands;
pub mod compile;
pub mod decode;
pub mod flow;
pub mod items;
pub mod layout;
pub mod lines;
pub mod lower;
pub mod names;
pub mod pool;
pub mod refusals;
pub mod scan;
pub mod translate;
pub mod types;
pub mod workshop;
pub mod world;
