//! Independent implementations in plain Rust, against which the tests hold the library and the benchmark times it.
//!
//!   plain      looseness, k-plexes, core, reach and bounds straight from their definitions, over lists of vertices
//!   refusals   which refusal a call owes, from the table of refusals
//!   text       sheets, read and written by lines
//!   dimacs     graphs in the DIMACS form, read and written by lines
//!   brute      the list by trying all sets, up to 16 vertices
//!   fp         the list by the published algorithm (Dai and others; degeneracy seeds, excluded set, second bound)
//!   cliques    the list for slack 1 by Bron and Kerbosch with Tomita's pivot
//!   largest    the largest k-plex that holds forced vertices, by trying all sets and by 003's algorithm
//!   book       what a change of a book owes: outcome, rows and slots
//!   words      sets in a word, for the fast ones
//!   instances  graphs of our own making
//!   calls      the exported calls on slices
//!   hold       what a call gives, held to what is wanted
//!   cases      inputs that several tests share
pub mod book;
pub mod brute;
pub mod calls;
pub mod cases;
pub mod cliques;
pub mod dimacs;
pub mod fp;
pub mod hold;
pub mod instances;
pub mod largest;
pub mod plain;
pub mod refusals;
pub mod text;
mod words;
