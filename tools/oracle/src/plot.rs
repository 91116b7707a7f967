//! What the program `plot` of document 01 prints for a file: the layer count and the graph with its
//! rooms, and the first tilings by number; between the counts the figure of document 02, request 3.

use crate::cuttings::from_layers;
use crate::plotfile::read_plot;
use crate::tiles::free_cells;
use crate::walk::{Walk, graph, layer_count};
use dcc_tiler::board::RectangularBoard;
use dcc_tiler::tile::{Tile, TileCollection};
use num::BigUint;

/// What `plot` lends: boards a layer, nodes, edges; and the most tilings that it lists.
const BOARDS: usize = 512;
const NODES: usize = 1024;
const EDGES: usize = 4096;
const LISTED: u32 = 16;

/// The printed lines, a line feed behind each.
pub fn plot(bytes: &[u8]) -> String {
    let mut lines = Vec::new();
    match read_plot(bytes) {
        Err(refusal) => lines.push(format!("refused {refusal}")),
        Ok((board, tiles)) => print_plot(&board, tiles, &mut lines),
    }
    lines.iter().map(|line| format!("{line}\n")).collect()
}

fn print_plot(board: &RectangularBoard, tiles: Vec<Tile>, lines: &mut Vec<String>) {
    let (width, height, free) = (board.width, board.height, free_cells(board));
    lines.push(format!("board {width} {height} free {free}"));
    lines.push(format!("tiles {}", tiles.len()));
    let tiles = TileCollection::new(tiles);
    let layers = layer_count(board, &tiles, BOARDS);
    lines.push(count_line("layers", &layers));
    lines.push(count_line("cuttings", &from_layers(board, layers)));
    match graph(board, &tiles, NODES, EDGES) {
        Ok(walk) => {
            if !walk.is_compared(board, &tiles) {
                eprintln!("plot: many child sequences, the Rust's own graph not built");
            }
            print_graph(&walk, lines);
        }
        Err(refusal) => lines.push(format!("graph refused {refusal}")),
    }
}

/// The line of a count or of its refusal.
fn count_line(name: &str, count: &Result<BigUint, u32>) -> String {
    match count {
        Ok(count) => format!("{name} {count}"),
        Err(refusal) => format!("{name} refused {refusal}"),
    }
}

fn print_graph(walk: &Walk, lines: &mut Vec<String>) {
    let (nodes, edges) = (walk.nodes.len(), walk.edges.len());
    lines.push(format!("graph {} nodes {nodes} edges {edges}", walk.count()));
    let numbers = (0..LISTED).map(BigUint::from).take_while(|m| *m < walk.count());
    for m in numbers {
        let list: Vec<String> = tiling(walk, &m).iter().map(usize::to_string).collect();
        lines.push(format!("tiling {m}: {}", list.join(" ")));
    }
}

/// The node list of tiling m: backward from the full node, at each node to the parent, in
/// stored order, whose turn holds m.
fn tiling(walk: &Walk, m: &BigUint) -> Vec<usize> {
    let mut m = m.clone();
    let mut list = vec![walk.full.unwrap()];
    while list[list.len() - 1] != 0 {
        let node = list[list.len() - 1];
        for (parent, _) in walk.edges.iter().filter(|edge| edge.1 == node) {
            if m < walk.counts[*parent] {
                list.push(*parent);
                break;
            }
            m -= &walk.counts[*parent];
        }
    }
    list.reverse();
    list
}
