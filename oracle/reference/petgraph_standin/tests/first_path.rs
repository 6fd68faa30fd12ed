//! The search against every path of small graphs, written out.

use petgraph_standin::Undirected;
use petgraph_standin::algo::astar;
use petgraph_standin::graph::NodeIndex;
use petgraph_standin::stable_graph::StableGraph;

type Graph = StableGraph<(), u32, Undirected, u32>;

/// Numbers from a seed, small enough for many ties.
fn drawn(state: &mut u64, below: u64) -> u64 {
    *state = state
        .wrapping_mul(6_364_136_223_846_793_005)
        .wrapping_add(1_442_695_040_888_963_407);
    (*state >> 33) % below
}

/// Nodes, edges and an order of nodes.
struct Small {
    edges: Vec<(usize, usize, u32)>,
    order: Vec<usize>,
}

fn small(seed: u64) -> Small {
    let mut state = seed;
    let count = 2 + drawn(&mut state, 6) as usize;
    let mut order: Vec<usize> = (0..count).collect();
    for i in (1..count).rev() {
        order.swap(i, drawn(&mut state, i as u64 + 1) as usize);
    }
    let mut edges = vec![];
    for a in 0..count {
        for b in a + 1..count {
            if drawn(&mut state, 10) < 6 {
                edges.push((a, b, drawn(&mut state, 4) as u32));
            }
        }
    }
    Small { edges, order }
}

/// Every path on from `path` that has no node twice, with its cost.
fn paths(
    small: &Small,
    goal: usize,
    path: &[usize],
    cost: u32,
    found: &mut Vec<(u32, Vec<usize>)>,
) {
    let at = path[path.len() - 1];
    if at == goal {
        found.push((cost, path.to_vec()));
        return;
    }
    for (a, b, weight) in &small.edges {
        for (from, to) in [(*a, *b), (*b, *a)] {
            if from == at && !path.contains(&to) {
                let longer = [path, &[to]].concat();
                paths(small, goal, &longer, cost + weight, found);
            }
        }
    }
}

/// 01's path: least cost, fewest edges, first in order.
fn owed(small: &Small, goal: usize) -> Option<(u32, Vec<usize>)> {
    let mut found = vec![];
    paths(small, goal, &[0], 0, &mut found);
    let rank = |node: &usize| small.order.iter().position(|other| other == node);
    found
        .into_iter()
        .min_by_key(|(cost, path)| (*cost, path.len(), path.iter().map(rank).collect::<Vec<_>>()))
}

fn given(small: &Small, goal: usize) -> Option<(u32, Vec<usize>)> {
    let mut graph = Graph::default();
    for _ in &small.order {
        graph.add_node(());
    }
    for (a, b, weight) in &small.edges {
        graph.add_edge(NodeIndex::new(*a), NodeIndex::new(*b), *weight);
    }
    let order: Vec<_> = small
        .order
        .iter()
        .map(|node| NodeIndex::new(*node))
        .collect();
    graph.rank_nodes(&order);
    let goal = NodeIndex::new(goal);
    let path = astar(
        &graph,
        NodeIndex::new(0),
        |node| node == goal,
        |edge| *edge.weight(),
        |_| 0,
    );
    path.map(|(cost, path)| (cost, path.into_iter().map(NodeIndex::index).collect()))
}

#[test]
fn the_search_gives_the_first_least_path() {
    let (mut with_path, mut without) = (0, 0);
    for seed in 0..3000 {
        let small = small(seed);
        for goal in 0..small.order.len() {
            let owed = owed(&small, goal);
            assert_eq!(given(&small, goal), owed, "seed {seed}, goal {goal}");
            match owed {
                Some(_) => with_path += 1,
                None => without += 1,
            }
        }
    }
    assert!(with_path > 10_000 && without > 100);
}

#[test]
fn a_removed_node_is_on_no_path() {
    let mut graph = Graph::default();
    let nodes = [0; 4].map(|_| graph.add_node(()));
    for (a, b) in [(0, 1), (1, 3), (0, 2), (2, 3)] {
        graph.add_edge(nodes[a], nodes[b], 1);
    }
    graph.rank_nodes(&nodes);
    graph.remove_node(nodes[1]);
    let path = astar(
        &graph,
        nodes[0],
        |node| node == nodes[3],
        |edge| *edge.weight(),
        |_| 0,
    );
    assert_eq!(path, Some((2, vec![nodes[0], nodes[2], nodes[3]])));
}
