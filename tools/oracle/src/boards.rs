//! Answers about a board, and about a board and tiles: holes, children, the layer count, the graph,
//! the tilings.

use crate::tiler::Tiler;
use crate::tiles::free_cells;
use crate::walk::{self, Walk};
use dcc_tiler::board::RectangularBoard;
use dcc_tiler::graph::BoardGraph;
use dcc_tiler::marks::{Marks, hex};
use dcc_tiler::render::take_collected;
use dcc_tiler::tile::{Tile, TileCollection};
use num::BigUint;

/// A board with any fixed and laid marks, set up through public items alone.
///
/// A laid mark also raises the private counts of its neighbours. So for each laid cell all other
/// cells are marked in the public `board` field, and the Rust itself lays the single tile on the
/// one free cell. At the end the field is set to the wanted marks; fixed marks never count.
pub fn board_of(
    (width, height): (usize, usize),
    fixed: Marks,
    laid: Marks,
) -> Result<RectangularBoard, String> {
    check_marks(width, height, fixed, laid)?;
    let mut b = RectangularBoard::new(width, height);
    let cells = || (0..height).flat_map(|row| (0..width).map(move |column| (row, column)));
    for (row, column) in cells().filter(|c| laid.has(c.0, c.1)) {
        b.board = vec![vec![true; width]; height];
        b.board[row][column] = false;
        let mut children = b.place_tile(&TileCollection::new(vec![Tile::box_tile()]));
        assert!(children.len() == 1, "the single tile has not one child");
        b = children.remove(0);
    }
    for (row, column) in cells() {
        b.board[row][column] = fixed.has(row, column) || laid.has(row, column);
    }
    Ok(b)
}

fn check_marks(width: usize, height: usize, fixed: Marks, laid: Marks) -> Result<(), String> {
    if width > 16 || height > 16 {
        return Err("a board is at most 16 by 16".to_string());
    }
    for (row, column) in (0..16).flat_map(|row| (0..16).map(move |column| (row, column))) {
        let (f, l) = (fixed.has(row, column), laid.has(row, column));
        if f && l {
            return Err(format!("cell {row} {column} is both fixed and laid"));
        }
        if (f || l) && (row >= height || column >= width) {
            return Err(format!("cell {row} {column} is outside the board"));
        }
    }
    Ok(())
}

/// Fixes a cell through the public `board` field, as document 02, request 2, has it; 15 if the cell is
/// outside the board or marked already, by either kind of mark.
pub fn add_hole(b: &mut RectangularBoard, row: usize, column: usize) -> Result<(), u32> {
    if row >= b.height || column >= b.width || b.board[row][column] {
        return Err(15);
    }
    b.board[row][column] = true;
    Ok(())
}

/// `WIDTH HEIGHT FIXED LAID` of a board with one more cell fixed; or `refused 4` for what is no board
/// by document 01, then `refused 15`.
pub fn hole(size: (usize, usize), fixed: Marks, laid: Marks, row: usize, column: usize) -> String {
    let one_is_zero = (size.0 == 0) != (size.1 == 0);
    if one_is_zero || check_marks(size.0, size.1, fixed, laid).is_err() {
        return "refused 4".to_string();
    }
    let mut b = board_of(size, fixed, laid).unwrap();
    if let Err(refusal) = add_hole(&mut b, row, column) {
        return format!("refused {refusal}");
    }
    let fixed = Marks::of(&b).without(laid);
    let set_up = board_of(size, fixed, laid);
    assert!(set_up.as_ref() == Ok(&b), "the board with a hole is not the board of its marks");
    format!("{} {} {fixed} {laid}", b.width, b.height)
}

/// `WIDTH HEIGHT HEX FREE`; or `large`, as the marks of such a board have no number.
pub fn made(b: RectangularBoard) -> String {
    if b.width > 16 || b.height > 16 {
        return "large".to_string();
    }
    format!("{} {} {} {}", b.width, b.height, hex(&b), free_cells(&b))
}

/// `NUMBER HEX ...`, in the Rust's order, for a board with these fixed marks.
pub fn children(b: RectangularBoard, fixed: Marks, tiles: TileCollection) -> String {
    let children = b.place_tile(&tiles);
    if let Some(child) = children.last() {
        check_child(child, fixed);
    }
    let mut fields = vec![children.len().to_string()];
    fields.extend(children.iter().map(hex));
    fields.join(" ")
}

/// The Rust's own child, its private counts included, is the board that is set up with its marks.
fn check_child(child: &RectangularBoard, fixed: Marks) {
    let laid = Marks::of(child).without(fixed);
    let set_up = board_of((child.width, child.height), fixed, laid);
    assert!(set_up.as_ref() == Ok(child), "a child is not the board of its marks");
}

/// The count that `count_tilings` gives before a graph is there.
pub fn layers(b: RectangularBoard, tiles: TileCollection) -> String {
    Tiler::new(tiles, b).count_tilings().to_string()
}

/// The same with room for so many boards a layer, as document 01 has it: the count, or `refused N`.
pub fn layers_in(b: RectangularBoard, tiles: TileCollection, room: usize) -> String {
    match walk::layer_count(&b, &tiles, room) {
        Ok(count) => count.to_string(),
        Err(refusal) => format!("refused {refusal}"),
    }
}

/// `COUNT NODES EDGES FULL HEX ... PARENT>CHILD ...`, in the Rust's numbering; FULL is the full
/// board's node or `none`; or `several`.
pub fn graph(b: RectangularBoard, tiles: TileCollection) -> String {
    let mut tiler = Tiler::new(tiles.clone(), b);
    let shared = tiler.graph();
    let graph = shared.read().unwrap();
    if several_full(&graph) {
        return "several".to_string();
    }
    let edges = found_edges(&graph, &tiles);
    let full = graph.get_complete_index();
    graph_text(tiler.count_tilings(), &nodes_of(&graph), &edges, full)
}

fn graph_text(
    count: BigUint,
    nodes: &[&RectangularBoard],
    edges: &[(usize, usize)],
    full: Option<usize>,
) -> String {
    let mut fields = vec![
        count.to_string(),
        nodes.len().to_string(),
        edges.len().to_string(),
        full.map_or("none".to_string(), |node| node.to_string()),
    ];
    fields.extend(nodes.iter().map(|node| hex(node)));
    fields.extend(edges.iter().map(|(parent, child)| format!("{parent}>{child}")));
    fields.join(" ")
}

/// The same with room for so many nodes and edges, as document 01 has it: the graph, or `refused N`.
/// Where the Rust has too many child sequences to build its graph, the walk stands alone; its count
/// is the Rust's layer count all the same.
pub fn graph_in(b: RectangularBoard, tiles: TileCollection, nodes: usize, edges: usize) -> String {
    let walk = match walk::graph(&b, &tiles, nodes, edges) {
        Ok(walk) => walk,
        Err(refusal) => return format!("refused {refusal}"),
    };
    if walk.is_compared(&b, &tiles) {
        return graph(b, tiles);
    }
    graph_text(walk.count(), &walk.nodes.iter().collect::<Vec<_>>(), &walk.edges, walk.full)
}

/// `NODES EDGES SEQUENCES OVER LAYER,...`: how large the graph and each layer are, for the choice of
/// rooms; OVER is the first layer with a path count of 2^64 or more, or `none`. `unequal` for unequal
/// tiles, `large` if there are more nodes than the most.
pub fn weigh(b: RectangularBoard, tiles: TileCollection, most: usize) -> String {
    if walk::are_unequal(&tiles) {
        return "unequal".to_string();
    }
    let Some(walk) = Walk::new(&b, &tiles, most) else {
        return "large".to_string();
    };
    let (sizes, over) = walk.layers();
    let over = over.map_or("none".to_string(), |layer| layer.to_string());
    let sizes = sizes.iter().map(usize::to_string).collect::<Vec<_>>().join(",");
    format!("{} {} {} {over} {sizes}", walk.nodes.len(), walk.edges.len(), walk.sequences())
}

/// With unequal tiles a graph may have several full nodes. The Rust then takes any one of them,
/// by the order of its hashes, so that its answers are no reference.
fn several_full(graph: &BoardGraph) -> bool {
    let nodes = nodes_of(graph);
    nodes.iter().skip(1).filter(|node| node.is_all_marked()).count() > 1
}

pub fn nodes_of(graph: &BoardGraph) -> Vec<&RectangularBoard> {
    (0..).map_while(|node| graph.get_node(node)).collect()
}

/// All edges in the order in which document 01 finds them: parents in number order, and of each its
/// children in the order in which `place_tile` gives them. The Rust keeps a node's edges in a hash
/// set; a child's number is looked up there by the child's board.
pub fn found_edges(graph: &BoardGraph, tiles: &TileCollection) -> Vec<(usize, usize)> {
    let nodes = nodes_of(graph);
    let mut found = Vec::new();
    for (node, board) in nodes.iter().enumerate() {
        for child in board.place_tile(tiles) {
            let mut kept = graph.get_edges(node).into_iter().flatten();
            let number = kept.find(|number| *nodes[**number] == child);
            found.push((node, *number.expect("a child of the node")));
        }
    }
    let mut sorted = found.clone();
    sorted.sort();
    assert!(sorted == edges_of(graph, nodes.len()), "the edges in their order are others");
    found
}

/// All edges, sorted by parent and then by child. The edges that the Rust keeps backward beside
/// them are the same ones.
fn edges_of(graph: &BoardGraph, nodes: usize) -> Vec<(usize, usize)> {
    let mut forward = Vec::new();
    let mut backward = Vec::new();
    for node in 0..nodes {
        let children = graph.get_edges(node).into_iter().flatten();
        forward.extend(children.map(|child| (node, *child)));
        let parents = graph.get_rev_edges(node).into_iter().flatten();
        backward.extend(parents.map(|parent| (*parent, node)));
    }
    forward.sort();
    backward.sort();
    assert!(forward == backward, "the backward edges differ");
    forward
}

/// `NUMBER HEX,...,HEX ...`: each tiling as the list of its boards from the starting board on,
/// the lists sorted; or `several`. The Rust hands its renderer each list full board first.
pub fn tilings(b: RectangularBoard, tiles: TileCollection) -> String {
    let mut tiler = Tiler::new(tiles, b);
    if several_full(&tiler.graph().read().unwrap()) {
        return "several".to_string();
    }
    take_collected();
    tiler.render_all_tilings("/dev/null").expect("a file to write to");
    let mut lists = take_collected();
    for list in &mut lists {
        list.reverse();
    }
    lists.sort();
    let text = |list: &Vec<Marks>| list.iter().map(Marks::to_string).collect::<Vec<_>>().join(",");
    let mut fields = vec![lists.len().to_string()];
    fields.extend(lists.iter().map(text));
    fields.join(" ")
}

/// `HEX ...` from the starting board to a full one, or `none`.
pub fn one(b: RectangularBoard, tiles: TileCollection) -> String {
    match Tiler::new(tiles, b).get_single_tiling(1) {
        Some(boards) => boards.iter().map(hex).collect::<Vec<_>>().join(" "),
        None => "none".to_string(),
    }
}
