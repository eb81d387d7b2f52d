//! The notions of the library straight from their definitions, over lists of vertices.

pub fn members(s: u64) -> Vec<usize> {
    (0..64).filter(|&v| s >> v & 1 == 1).collect()
}

pub fn mask(vertices: &[usize]) -> u64 {
    vertices.iter().map(|&v| 1u64 << v).sum()
}

/// All vertices below n.
pub fn full(n: usize) -> u64 {
    if n == 64 {
        !0
    } else {
        (1 << n) - 1
    }
}

pub fn adjacent(rows: &[u64], a: usize, b: usize) -> bool {
    rows[a] >> b & 1 == 1
}

/// How many of the given vertices v is not adjacent to, itself counted where it is given.
pub fn cost(rows: &[u64], set: &[usize], v: usize) -> usize {
    set.iter().filter(|&&w| !adjacent(rows, v, w)).count()
}

/// The most members that a member misses, itself counted; 0 where there is none.
pub fn looseness(rows: &[u64], s: u64) -> usize {
    let set = members(s);
    set.iter().map(|&v| cost(rows, &set, v)).max().unwrap_or(0)
}

/// Definition 1 of 001, by which lists are compared: each member is adjacent to at least |S| - k members.
pub fn is_plex(rows: &[u64], k: usize, s: u64) -> bool {
    let set = members(s);
    set.iter().all(|&v| set.iter().filter(|&&w| adjacent(rows, v, w)).count() + k >= set.len())
}

/// How many members count at the floor: those that are not silent.
pub fn recorded(s: u64, silent: u64) -> usize {
    members(s).into_iter().filter(|&v| silent >> v & 1 == 0).count()
}

/// A k-plex that no other k-plex contains. All sets that contain it are tried, so few vertices may lie outside.
pub fn is_maximal_by_all(rows: &[u64], k: usize, s: u64) -> bool {
    let outside: Vec<usize> = (0..rows.len()).filter(|&v| s >> v & 1 == 0).collect();
    let with = |choice: usize| outside.iter().enumerate().filter(|(i, _)| choice >> i & 1 == 1).fold(s, |t, (_, &v)| t | 1 << v);
    is_plex(rows, k, s) && (1..1usize << outside.len()).all(|choice| !is_plex(rows, k, with(choice)))
}

/// A k-plex to which no single vertex can be added.
pub fn is_maximal_by_one(rows: &[u64], k: usize, s: u64) -> bool {
    is_plex(rows, k, s) && (0..rows.len()).all(|v| s >> v & 1 == 1 || !is_plex(rows, k, s | 1 << v))
}

/// The largest set whose members have `degree` neighbours in it: vertices with fewer are deleted from a worklist.
pub fn core(rows: &[u64], degree: usize) -> u64 {
    let n = rows.len();
    let mut degrees: Vec<usize> = (0..n).map(|v| (0..n).filter(|&w| adjacent(rows, v, w)).count()).collect();
    let mut gone: Vec<bool> = degrees.iter().map(|&d| d < degree).collect();
    let mut work: Vec<usize> = (0..n).filter(|&v| gone[v]).collect();
    while let Some(v) = work.pop() {
        for w in (0..n).filter(|&w| adjacent(rows, v, w)) {
            degrees[w] -= 1;
            if !gone[w] && degrees[w] < degree {
                gone[w] = true;
                work.push(w);
            }
        }
    }
    (0..n).filter(|&v| !gone[v]).map(|v| 1u64 << v).sum()
}

/// What passes leave of all vertices, and how many there are up to the first that takes none. A pass goes through a list of the vertices left, by rising
/// number, and strikes each that has fewer than `degree` neighbours among those of the list.
pub fn passes(rows: &[u64], degree: usize) -> (u64, usize) {
    let mut left: Vec<usize> = (0..rows.len()).collect();
    for made in 1.. {
        let before = left.clone();
        for v in before.iter().copied() {
            if left.iter().filter(|&&w| adjacent(rows, v, w)).count() < degree {
                left.retain(|&w| w != v);
            }
        }
        if left == before {
            return (left.iter().map(|&v| 1u64 << v).sum(), made);
        }
    }
    unreachable!()
}

/// The union of all sets whose members have `degree` neighbours in them: the core by trying all sets.
pub fn core_by_all(rows: &[u64], degree: usize) -> u64 {
    let stands = |s: u64| members(s).iter().all(|&v| members(s).iter().filter(|&&w| adjacent(rows, v, w)).count() >= degree);
    (0..1u64 << rows.len()).filter(|&s| stands(s)).fold(0, |union, s| union | s)
}

/// All vertices at most two edges away, by a search in breadth.
pub fn reach(rows: &[u64], v: usize) -> u64 {
    let mut distance = vec![usize::MAX; rows.len()];
    let mut queue = std::collections::VecDeque::from([v]);
    distance[v] = 0;
    while let Some(a) = queue.pop_front() {
        for b in 0..rows.len() {
            if adjacent(rows, a, b) && distance[b] == usize::MAX {
                distance[b] = distance[a] + 1;
                queue.push_back(b);
            }
        }
    }
    (0..rows.len()).filter(|&a| distance[a] <= 2).map(|a| 1u64 << a).sum()
}

/// The neighbours of v in c that make a k-plex with s, each with its cost, by rising cost and then number.
fn priced(rows: &[u64], k: usize, s: u64, c: u64, v: usize) -> Vec<(usize, usize)> {
    let kept = members(c).into_iter().filter(|&u| is_plex(rows, k, s | 1 << u) && adjacent(rows, v, u));
    let mut priced: Vec<(usize, usize)> = kept.map(|u| (cost(rows, &members(s), u), u)).collect();
    priced.sort();
    priced
}

fn base(rows: &[u64], k: usize, s: u64, v: usize) -> usize {
    members(s).len() + k - cost(rows, &members(s), v)
}

/// The first bound: the most neighbours, cheapest first, whose costs together are at most the sum of all supports.
pub fn first_bound(rows: &[u64], k: usize, s: u64, c: u64, v: usize) -> usize {
    let total: usize = members(s).iter().map(|&w| k - cost(rows, &members(s), w)).sum();
    let costs: Vec<usize> = priced(rows, k, s, c, v).iter().map(|&(cost, _)| cost).collect();
    let most = (0..=costs.len()).filter(|&m| costs[..m].iter().sum::<usize>() <= total).max().unwrap();
    base(rows, k, s, v) + most
}

/// The second bound: each neighbour that is kept takes one off the least support among the members it is not adjacent to.
pub fn second_bound(rows: &[u64], k: usize, s: u64, c: u64, v: usize) -> usize {
    let mut supports: std::collections::BTreeMap<usize, usize> = members(s).iter().map(|&w| (w, k - cost(rows, &members(s), w))).collect();
    let mut total: usize = supports.values().sum();
    let mut kept = 0;
    for (cost, u) in priced(rows, k, s, c, v) {
        if cost == 0 {
            kept += 1;
        } else if cost <= total {
            let (&tightest, &support) = supports.iter().filter(|(&w, _)| !adjacent(rows, u, w)).min_by_key(|(&w, &support)| (support, w)).unwrap();
            if support > 0 {
                supports.insert(tightest, support - 1);
                total -= cost;
                kept += 1;
            }
        }
    }
    base(rows, k, s, v) + kept
}

/// The size of the largest k-plex that holds s and v and has no vertex outside s and c, by trying all sets.
pub fn largest(rows: &[u64], k: usize, s: u64, c: u64, v: usize) -> usize {
    let free = members(c & !(1 << v));
    let with = |choice: usize| free.iter().enumerate().filter(|(i, _)| choice >> i & 1 == 1).fold(s | 1 << v, |t, (_, &u)| t | 1 << u);
    (0..1usize << free.len()).map(with).filter(|&t| is_plex(rows, k, t)).map(|t| members(t).len()).max().unwrap_or(0)
}
