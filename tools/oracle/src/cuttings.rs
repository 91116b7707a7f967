//! The figure called cuttings, after the text of document 02, request 3: the Rust has no such figure.
//! A refused layer count refuses it, by the same number; it is 1 where no cell of the board is free;
//! otherwise it is the layer count, which is the Rust's.

use crate::tiler::Tiler;
use crate::tiles::free_cells;
use crate::walk::layer_count;
use dcc_tiler::board::RectangularBoard;
use dcc_tiler::tile::TileCollection;
use num::{BigUint, One};

/// The figure of a board from its layer count or that one's refusal.
pub fn from_layers(b: &RectangularBoard, layers: Result<BigUint, u32>) -> Result<BigUint, u32> {
    let count = layers?;
    Ok(if free_cells(b) == 0 { BigUint::one() } else { count })
}

/// The figure with no rooms and no refusals, as the Rust's layer count has none.
pub fn cuttings(b: RectangularBoard, tiles: TileCollection) -> String {
    let count = Tiler::new(tiles, b.clone()).count_tilings();
    from_layers(&b, Ok(count)).unwrap().to_string()
}

/// The figure with room for so many boards a layer, or `refused N`.
pub fn cuttings_in(b: RectangularBoard, tiles: TileCollection, room: usize) -> String {
    match from_layers(&b, layer_count(&b, &tiles, room)) {
        Ok(figure) => figure.to_string(),
        Err(refusal) => format!("refused {refusal}"),
    }
}
