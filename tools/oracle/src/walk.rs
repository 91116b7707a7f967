//! The layer count and the graph by the definitions of document 01, over the Rust's `place_tile`,
//! with the rooms and refusals that 01 adds. What is not refused is compared with the Rust's own.

use crate::boards::{found_edges, nodes_of};
use crate::tiler::Tiler;
use crate::tiles::size;
use dcc_tiler::board::RectangularBoard;
use dcc_tiler::tile::TileCollection;
use num::{BigUint, One, Zero};
use std::collections::{BTreeSet, HashMap};

/// The Rust opens a board of its graph once for each child sequence that reaches it. Past this
/// many sequences its graph is not built and the walk stands alone.
const MOST_SEQUENCES: u32 = 200_000;

/// Whether two tiles have different numbers of cells.
pub fn are_unequal(tiles: &TileCollection) -> bool {
    tiles.iter().map(size).collect::<BTreeSet<usize>>().len() > 1
}

fn too_great(count: &BigUint) -> bool {
    *count >= BigUint::one() << 64
}

/// The layer count with room for so many boards a layer, or the refusal. A count is the Rust's.
pub fn layer_count(
    board: &RectangularBoard,
    tiles: &TileCollection,
    room: usize,
) -> Result<BigUint, u32> {
    if are_unequal(tiles) {
        return Err(7);
    }
    let mut answer = BigUint::zero();
    let mut layer = HashMap::from([(board.clone(), BigUint::one())]);
    while !layer.is_empty() {
        if layer.len() > room {
            return Err(8);
        }
        if layer.values().any(too_great) {
            return Err(9);
        }
        layer = next_layer(&layer, tiles, room);
        if let Some((_, count)) = layer.iter().find(|(child, _)| child.is_all_marked()) {
            answer = count.clone();
        }
    }
    let theirs = Tiler::new(tiles.clone(), board.clone()).count_tilings();
    assert!(answer == theirs, "layer count {answer}, the Rust's {theirs}");
    Ok(answer)
}

type Layer = HashMap<RectangularBoard, BigUint>;

/// The next layer, or enough of it to see that it passes the room.
fn next_layer(layer: &Layer, tiles: &TileCollection, room: usize) -> Layer {
    let mut next = Layer::new();
    for (board, count) in layer {
        if next.len() > room {
            break;
        }
        for child in board.place_tile(tiles) {
            *next.entry(child).or_insert_with(BigUint::zero) += count;
        }
    }
    next
}

/// The graph with room for so many nodes and edges, or the refusal.
pub fn graph(
    board: &RectangularBoard,
    tiles: &TileCollection,
    nodes: usize,
    edges: usize,
) -> Result<Walk, u32> {
    if are_unequal(tiles) {
        return Err(7);
    }
    let walk = Walk::new(board, tiles, nodes).ok_or(8u32)?;
    if walk.edges.len() > edges {
        return Err(10);
    }
    if walk.counts.iter().any(too_great) {
        return Err(9);
    }
    Ok(walk)
}

/// The graph by the definition of document 01.
pub struct Walk {
    pub nodes: Vec<RectangularBoard>,
    pub edges: Vec<(usize, usize)>,
    pub counts: Vec<BigUint>,
    pub full: Option<usize>,
    /// Where each layer ends among the nodes.
    pub ends: Vec<usize>,
}

impl Walk {
    /// None if the nodes pass the room.
    pub fn new(board: &RectangularBoard, tiles: &TileCollection, room: usize) -> Option<Walk> {
        if room == 0 {
            return None;
        }
        let mut walk = Walk {
            nodes: vec![board.clone()],
            edges: Vec::new(),
            counts: vec![BigUint::one()],
            full: None,
            ends: Vec::new(),
        };
        let mut layer = 0..1;
        while !layer.is_empty() {
            walk.ends.push(layer.end);
            let mut numbers = HashMap::new();
            for parent in layer.clone() {
                for child in walk.nodes[parent].place_tile(tiles) {
                    walk.add(parent, child, &mut numbers);
                }
                if walk.nodes.len() > room {
                    return None;
                }
            }
            layer = layer.end..walk.nodes.len();
        }
        Some(walk)
    }

    /// Adds an edge and, if the child is new in its layer, a node.
    fn add(
        &mut self,
        parent: usize,
        child: RectangularBoard,
        numbers: &mut HashMap<RectangularBoard, usize>,
    ) {
        let number = *numbers.entry(child).or_insert_with_key(|child| {
            if child.is_all_marked() {
                self.full = Some(self.nodes.len());
            }
            self.nodes.push(child.clone());
            self.counts.push(BigUint::zero());
            self.nodes.len() - 1
        });
        let count = self.counts[parent].clone();
        self.counts[number] += count;
        self.edges.push((parent, number));
    }

    /// Compares the walk with the Rust's own graph: the same nodes with the same numbers, edges,
    /// full node and count. If there are too many child sequences to build it, the count is compared
    /// with the Rust's layer count, and the answer is false.
    pub fn is_compared(&self, board: &RectangularBoard, tiles: &TileCollection) -> bool {
        let mut tiler = Tiler::new(tiles.clone(), board.clone());
        if self.sequences() > BigUint::from(MOST_SEQUENCES) {
            assert!(tiler.count_tilings() == self.count(), "the layer count differs");
            return false;
        }
        let shared = tiler.graph();
        let theirs = shared.read().unwrap();
        let nodes = nodes_of(&theirs);
        assert!(nodes.iter().copied().eq(&self.nodes), "the nodes differ");
        assert!(self.edges == found_edges(&theirs, tiles), "the edges differ");
        assert!(theirs.get_complete_index() == self.full, "the full node differs");
        assert!(tiler.count_tilings() == self.count(), "the graph count differs");
        true
    }

    /// The number of child sequences.
    pub fn sequences(&self) -> BigUint {
        self.counts.iter().sum()
    }

    pub fn count(&self) -> BigUint {
        self.full.map_or(BigUint::zero(), |full| self.counts[full].clone())
    }

    /// The sizes of the layers, and the first of them in which a path count is too great.
    pub fn layers(&self) -> (Vec<usize>, Option<usize>) {
        let starts = [0].into_iter().chain(self.ends.iter().copied());
        let layers = starts.zip(&self.ends).map(|(start, end)| &self.counts[start..*end]);
        let over = layers.clone().position(|counts| counts.iter().any(too_great));
        (layers.map(<[BigUint]>::len).collect(), over)
    }
}
