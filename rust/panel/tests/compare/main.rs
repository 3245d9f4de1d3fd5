//! The proved library against the second implementation, from fixed seeds.
//!
//! Every test runs in both styles of drawing, but for the import of nets, which has no style, and writes
//! how many cases it ran. The environment variable PANEL_ROUNDS (1 if it isn't set) multiplies the number
//! of random cases: `PANEL_ROUNDS=20 cargo test --release -p panel`. A case that differs is made as small as
//! can be before it is printed.

mod all_moves;
mod as_c;
mod both;
mod calls;
mod calls_all_moves;
mod calls_lookups;
mod calls_move;
mod damage;
mod damaged_nets;
mod feeders;
mod import;
mod lookups;
mod moves;
mod orders;
mod outputs;
mod planar_code;
mod promise;
mod proved;
mod shrink;
mod styles;
mod tally;
