//! The instances: graphs with 64 vertices (johnson8-2-4 has 28, MANN_a9 45), and a slack and a floor such that a run takes milliseconds to a second.
use outside::instances::*;

pub struct Row {
    pub name: &'static str,
    pub graph: fn() -> Vec<u64>,
    pub k: usize,
    pub q: usize,
}

const fn row(name: &'static str, graph: fn() -> Vec<u64>, k: usize, q: usize) -> Row {
    Row { name, graph, k, q }
}

fn random_1() -> Vec<u64> {
    random(64, 0.1, 1)
}

fn random_2() -> Vec<u64> {
    random(64, 0.2, 1)
}

fn random_3() -> Vec<u64> {
    random(64, 0.3, 1)
}

fn random_4() -> Vec<u64> {
    random(64, 0.4, 1)
}

fn random_5() -> Vec<u64> {
    random(64, 0.5, 1)
}

fn random_6() -> Vec<u64> {
    random(64, 0.6, 1)
}

fn random_7() -> Vec<u64> {
    random(64, 0.7, 1)
}

fn random_8() -> Vec<u64> {
    random(64, 0.8, 1)
}

fn random_9() -> Vec<u64> {
    random(64, 0.9, 1)
}

/// Four dense sets of 14 vertices in a random graph.
fn with_plexes() -> Vec<u64> {
    planted(64, 0.2, 4, 14, 0.9, 1)
}

/// Two communities of 32 vertices with no edge between them.
fn disjoint() -> Vec<u64> {
    communities(64, 32, 0.7, 0.0, 1)
}

/// Four communities of 16 vertices with few edges between them.
fn communities_16() -> Vec<u64> {
    communities(64, 16, 0.8, 0.05, 1)
}

/// Eight cliques of eight vertices.
fn cliques_8() -> Vec<u64> {
    ring_of_cliques(64, 8)
}

fn parts_4() -> Vec<u64> {
    multipartite(64, 4)
}

fn parts_8() -> Vec<u64> {
    multipartite(64, 8)
}

fn parts_16() -> Vec<u64> {
    multipartite(64, 16)
}

fn parts_32() -> Vec<u64> {
    multipartite(64, 32)
}

fn hamming6_2() -> Vec<u64> {
    hamming6(2)
}

fn hamming6_4() -> Vec<u64> {
    hamming6(4)
}

pub const ROWS: &[Row] = &[
    row("random 0.1", random_1, 1, 1),
    row("random 0.1", random_1, 2, 3),
    row("random 0.1", random_1, 3, 5),
    row("random 0.1", random_1, 4, 7),
    row("random 0.1", random_1, 5, 9),
    row("random 0.2", random_2, 1, 1),
    row("random 0.2", random_2, 2, 3),
    row("random 0.2", random_2, 3, 5),
    row("random 0.2", random_2, 4, 7),
    row("random 0.2", random_2, 5, 9),
    row("random 0.3", random_3, 1, 1),
    row("random 0.3", random_3, 2, 3),
    row("random 0.3", random_3, 3, 5),
    row("random 0.3", random_3, 4, 9),
    row("random 0.3", random_3, 5, 11),
    row("random 0.4", random_4, 1, 1),
    row("random 0.4", random_4, 2, 3),
    row("random 0.4", random_4, 3, 5),
    row("random 0.4", random_4, 4, 11),
    row("random 0.4", random_4, 5, 13),
    row("random 0.5", random_5, 1, 1),
    row("random 0.5", random_5, 2, 3),
    row("random 0.5", random_5, 3, 10),
    row("random 0.5", random_5, 4, 13),
    row("random 0.5", random_5, 5, 16),
    row("random 0.6", random_6, 1, 1),
    row("random 0.6", random_6, 2, 3),
    row("random 0.6", random_6, 3, 14),
    row("random 0.6", random_6, 4, 17),
    row("random 0.6", random_6, 5, 20),
    row("random 0.7", random_7, 1, 1),
    row("random 0.7", random_7, 2, 12),
    row("random 0.7", random_7, 3, 18),
    row("random 0.7", random_7, 4, 22),
    row("random 0.7", random_7, 5, 25),
    row("random 0.8", random_8, 1, 1),
    row("random 0.8", random_8, 2, 20),
    row("random 0.8", random_8, 3, 25),
    row("random 0.8", random_8, 4, 29),
    row("random 0.8", random_8, 5, 33),
    row("random 0.9", random_9, 1, 11),
    row("random 0.9", random_9, 2, 30),
    row("random 0.9", random_9, 3, 36),
    row("random 0.9", random_9, 4, 41),
    row("random 0.9", random_9, 5, 46),
    row("planted", with_plexes, 1, 1),
    row("planted", with_plexes, 2, 3),
    row("planted", with_plexes, 3, 5),
    row("planted", with_plexes, 4, 8),
    row("planted", with_plexes, 5, 12),
    row("disjoint communities", disjoint, 1, 1),
    row("disjoint communities", disjoint, 2, 3),
    row("disjoint communities", disjoint, 3, 12),
    row("disjoint communities", disjoint, 4, 15),
    row("disjoint communities", disjoint, 5, 18),
    row("communities", communities_16, 1, 1),
    row("communities", communities_16, 2, 3),
    row("communities", communities_16, 3, 5),
    row("communities", communities_16, 4, 7),
    row("communities", communities_16, 5, 9),
    row("ring of cliques", cliques_8, 1, 1),
    row("ring of cliques", cliques_8, 2, 3),
    row("ring of cliques", cliques_8, 5, 9),
    row("multipartite 16", parts_16, 1, 1),
    row("multipartite 32", parts_32, 2, 3),
    row("multipartite 16", parts_16, 2, 16),
    row("multipartite 8", parts_8, 3, 41),
    row("multipartite 4", parts_4, 3, 56),
    row("multipartite 8", parts_8, 4, 46),
    row("multipartite 8", parts_8, 5, 50),
    row("hamming6-2", hamming6_2, 1, 11),
    row("hamming6-2", hamming6_2, 2, 32),
    row("hamming6-2", hamming6_2, 3, 40),
    row("hamming6-2", hamming6_2, 4, 46),
    row("hamming6-2", hamming6_2, 5, 52),
    row("hamming6-4", hamming6_4, 1, 1),
    row("hamming6-4", hamming6_4, 2, 3),
    row("hamming6-4", hamming6_4, 3, 5),
    row("hamming6-4", hamming6_4, 4, 9),
    row("hamming6-4", hamming6_4, 5, 11),
    row("johnson8-2-4", johnson8_2_4, 1, 1),
    row("johnson8-2-4", johnson8_2_4, 2, 3),
    row("johnson8-2-4", johnson8_2_4, 3, 5),
    row("johnson8-2-4", johnson8_2_4, 4, 7),
    row("johnson8-2-4", johnson8_2_4, 5, 9),
    row("MANN_a9", mann_a9, 1, 11),
    row("MANN_a9", mann_a9, 2, 10),
    row("MANN_a9", mann_a9, 2, 25),
    row("MANN_a9", mann_a9, 3, 32),
    row("MANN_a9", mann_a9, 4, 38),
    row("MANN_a9", mann_a9, 5, 45),
];
