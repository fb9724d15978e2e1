//! The cycles of a graph.

use std::collections::{BTreeSet, VecDeque};

/// Shortest ways from a place of the graph back to it. Every place that can reach
/// itself is on one of them.
pub fn cycles(next: &[BTreeSet<usize>]) -> Vec<Vec<usize>> {
    let (mut cycles, mut seen) = (Vec::new(), BTreeSet::<usize>::new());
    for start in 0..next.len() {
        if seen.contains(&start) {
            continue;
        }
        if let Some(cycle) = way_back(next, start) {
            seen.extend(&cycle);
            cycles.push(cycle);
        }
    }
    cycles
}

/// A shortest way from a place back to it, which ends the way, too.
fn way_back(next: &[BTreeSet<usize>], start: usize) -> Option<Vec<usize>> {
    let mut before = vec![None; next.len()];
    let mut open = VecDeque::from([start]);
    while let Some(here) = open.pop_front() {
        for &there in &next[here] {
            if before[there].is_none() {
                before[there] = Some(here);
                open.push_back(there);
            }
        }
    }
    let mut way = vec![start];
    let mut here = before[start]?;
    while here != start {
        way.push(here);
        here = before[here]?;
    }
    way.push(start);
    way.reverse();
    Some(way)
}

#[test]
fn cycles_are_found() {
    let graph = |next: &[&[usize]]| -> Vec<BTreeSet<usize>> {
        let sets = next.iter().map(|set| set.iter().copied().collect());
        sets.collect()
    };
    for (next, expected) in [
        (&[][..], vec![]),
        (&[&[][..]][..], vec![]),
        (&[&[0]], vec![vec![0, 0]]),
        // Two ways to one place are no cycle.
        (&[&[1, 2], &[3], &[3], &[]], vec![]),
        // A way into a cycle is none.
        (&[&[1], &[2], &[1]], vec![vec![1, 2, 1]]),
        (&[&[1], &[2], &[0]], vec![vec![0, 1, 2, 0]]),
        // The shortest of two, and then the rest.
        (
            &[&[1, 2], &[2], &[0]],
            vec![vec![0, 2, 0], vec![1, 2, 0, 1]],
        ),
        (&[&[0], &[2], &[1]], vec![vec![0, 0], vec![1, 2, 1]]),
    ] {
        assert_eq!(cycles(&graph(next)), expected, "{next:?}");
    }
}
