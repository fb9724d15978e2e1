//! What the call graph of a static library may not have.

use super::calls::graph;
use super::cycles::cycles;
use super::objdump::Object;

/// Routines of the C library that call no routine of their caller.
pub const OF_THE_C_LIBRARY: [&str; 2] = ["memcpy", "memset"];

/// What keeps it from being known that no routine of these objects can reach itself:
/// ways from a routine back to it, branches to nowhere known, unknown routines.
pub fn faults_of(objects: &[Object]) -> Vec<String> {
    let graph = graph(objects);
    let mut faults = graph.untold;
    let unknown = |name: &&String| !OF_THE_C_LIBRARY.contains(&name.as_str());
    let outside = graph.outside.iter().filter(unknown);
    faults.extend(outside.map(|name| format!("not in the library: {name}")));
    for cycle in cycles(&graph.calls) {
        let names = cycle.iter().map(|&routine| &graph.names[routine][..]);
        faults.push(format!("recursive: {}", from_the_least(names.collect())));
    }
    faults
}

/// A way back to its start, told from the name that comes first by its letters: where
/// the routines stand in the file does not matter.
fn from_the_least(mut names: Vec<&str>) -> String {
    names.pop();
    let places = 0..names.len();
    let first = places.min_by_key(|&place| names[place]).unwrap_or(0);
    names.rotate_left(first);
    names.push(names[0]);
    names.join(" -> ")
}
