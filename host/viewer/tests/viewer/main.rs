//! The program `kuspigo`: each of its words on document 01's whole case and on damaged input, formulas as input and as
//! output, its runs beside the run program, its traces beside the plain implementation, its pictures as XML, what it says
//! of exchanges beside a search through them.

mod commands;
mod exchanges;
mod formulas;
mod misread;
mod pictures;
mod refusals;
mod runs;
mod support;
mod traces;
