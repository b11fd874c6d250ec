//! From C: the archive, the header in each language that it is for, the examples, versions that do not belong together,
//! and what is installed. Everything is built with the system's compilers.

mod archive;
mod examples;
mod header;
mod install;
mod support;
mod versions;
