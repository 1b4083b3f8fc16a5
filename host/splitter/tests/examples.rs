//! The examples end well: each has a test that says so.

#[path = "../examples/graph.rs"]
mod graph;
#[path = "../examples/night.rs"]
mod night;
#[path = "../examples/read_pair.rs"]
mod read_pair;
#[path = "../examples/split.rs"]
mod split;
