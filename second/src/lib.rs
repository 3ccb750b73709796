// The second program: every answer worked out again from the published definitions,
// by one dense system over all bits of u and, for small N, by trying every u.
// It shares no code and no method with the proved crates.
// A module imports only modules that stand above it here.

// what every other stands on: the numbers that may move, answers, files, chance, linear systems
pub mod answer;
pub mod files;
pub mod limits;
pub mod rng;
pub mod system;

// the definitions: the check, a record in its layouts, the sheet, the code
pub mod check;
pub mod layout;

pub mod sheet;

pub mod code;

// the decoders: by trial and by one dense system; the open positions; whole strips, and their peer
pub mod brute;
pub mod dense;

pub mod obvious;
pub mod open;
pub mod strips;

// the calls, and what is made with them
pub mod calls;

pub mod make;
pub mod protocol;
pub mod show;

pub mod more;
pub mod pace;
pub mod words;

// what is in the tree: the vectors, the sample lots and strips, what the programs are held to
pub mod requests;
pub mod sample;

pub mod strip_lot;

pub mod lot;

pub mod programs;
