//! Answers about directions and tiles: steps, turns, reflections, orbits and numbers of cells.

use crate::text::{code, tile_text};
use dcc_tiler::board::RectangularBoard;
use dcc_tiler::tile::{Axis, Direction, Tile, TileCollection};
use std::collections::HashSet;

/// The eight neighbours of a cell, as row and column steps.
const NEIGHBOURS: [(isize, isize); 8] =
    [(-1, -1), (-1, 0), (-1, 1), (0, -1), (0, 1), (1, -1), (1, 0), (1, 1)];

/// `ROWSTEP COLSTEP OPPOSITE ROTATED REFLECTED_HORIZONTAL REFLECTED_VERTICAL`
pub fn direction(d: Direction) -> String {
    let (row, column) = step(d);
    let opposite = code(d.opposite());
    let rotated = code(d.rotate());
    let horizontal = code(d.reflect(Axis::Horizontal));
    let vertical = code(d.reflect(Axis::Vertical));
    format!("{row} {column} {opposite} {rotated} {horizontal} {vertical}")
}

/// A direction's step, found by experiment since `move_in_direction` is private.
///
/// On a 5 by 5 board only A = (2, 1), B = (2, 2) and C = B + x are free. The tile with the path
/// Right, d goes from A over B to C, and so fills the board, exactly if d's step is x. For x =
/// (0, -1), C is A and only two cells are free. A child that leaves a cell free proves nothing:
/// Right, Left fits A and B whatever x is.
///
/// This pins Right too. Right, Right fills the board only if the three cells lie in line with B
/// in their middle, so Right is one column to the right or one to the left. If it were one to the
/// left, the tile would go from B over A to A + step(d). For Up the board with x = (-1, 0) would
/// not fill, the one with x = (-1, -1) would instead; and for a direction that goes up or down
/// and to the left no board would, as column 0 is never free, and the assertion would fail.
fn step(d: Direction) -> (isize, isize) {
    let fills = |x: &(isize, isize)| {
        let b = board_with_free(5, &[(2, 1), (2, 2), (2 + x.0, 2 + x.1)]);
        let tile = Tile::new(vec![Direction::Right, d]);
        let children = b.place_tile(&TileCollection::new(vec![tile]));
        children.iter().any(|child| child.is_all_marked())
    };
    let found: Vec<_> = NEIGHBOURS.into_iter().filter(fills).collect();
    assert!(found.len() == 1, "{d:?}: {} steps fit, not one", found.len());
    found[0]
}

/// A square board with fixed marks on all cells but the given ones.
fn board_with_free(side: usize, free: &[(isize, isize)]) -> RectangularBoard {
    let mut b = RectangularBoard::new(side, side);
    b.board = vec![vec![true; side]; side];
    for (row, column) in free {
        b.board[*row as usize][*column as usize] = false;
    }
    b
}

/// The orbit in the order of document 01: the tile and its three clockwise turns, its Horizontal
/// reflection and that one's turns, first appearances kept. As a set it is the Rust's own orbit,
/// whose order is hashed.
pub fn orbit(tile: &Tile) -> Vec<Tile> {
    let mut list = Vec::new();
    for start in [tile.clone(), tile.reflect(Axis::Horizontal)] {
        let mut turned = start;
        for _ in 0..4 {
            if !list.contains(&turned) {
                list.push(turned.clone());
            }
            turned = turned.rotate();
        }
    }
    let ours: HashSet<&Tile> = list.iter().collect();
    let collection = TileCollection::from(tile.clone());
    let theirs: HashSet<&Tile> = collection.iter().collect();
    assert!(ours == theirs, "the orbit differs from the Rust's");
    list
}

/// `ROTATED HORIZONTAL VERTICAL`
pub fn tile(tile: &Tile) -> String {
    let rotated = tile_text(&tile.rotate());
    let horizontal = tile_text(&tile.reflect(Axis::Horizontal));
    let vertical = tile_text(&tile.reflect(Axis::Vertical));
    format!("{rotated} {horizontal} {vertical}")
}

/// The number of cells that a tile covers, counted on a board where the Rust has laid it.
///
/// The board's outer rows and columns have fixed marks, and so have the cells of column 1 above
/// its middle. All free cells then have the neighbour count 0, so that the chosen cell is the
/// middle of column 1, the first free cell by column and then by row. The tile fits with its own
/// first cell, by the same order, on the chosen cell and in no other place over it. The side is
/// long enough for any path of this length. So there is exactly one child, and no step is needed
/// here to find it.
pub fn size(tile: &Tile) -> usize {
    let length = tile.directions.len();
    let side = 2 * length + 3;
    let mut b = RectangularBoard::new(side, side);
    for (row, cells) in b.board.iter_mut().enumerate() {
        let outer = row == 0 || row == side - 1;
        for (column, marked) in cells.iter_mut().enumerate() {
            let side_column = column == 0 || column == side - 1;
            *marked = outer || side_column || (column == 1 && row <= length);
        }
    }
    let children = b.place_tile(&TileCollection::new(vec![tile.clone()]));
    assert!(children.len() == 1, "{} children, not one", children.len());
    free_cells(&b) - free_cells(&children[0])
}

pub fn free_cells(b: &RectangularBoard) -> usize {
    b.board.iter().flatten().filter(|marked| !**marked).count()
}
