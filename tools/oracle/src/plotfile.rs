//! The reader of a plot file, after the text of document 01, and for the records HO after that of
//! document 02, request 2: the Rust has no such file. Boards and orbits are the Rust's.

use crate::boards::add_hole;
use crate::text::DIRECTIONS;
use crate::tiles::orbit;
use dcc_tiler::board::RectangularBoard;
use dcc_tiler::tile::Tile;

/// The bytes that are still to be read.
struct Rest<'a>(&'a [u8]);

impl<'a> Rest<'a> {
    /// Takes the next bytes; 1 if there are fewer.
    fn take(&mut self, number: usize) -> Result<&'a [u8], u32> {
        if self.0.len() < number {
            return Err(1);
        }
        let (taken, rest) = self.0.split_at(number);
        self.0 = rest;
        Ok(taken)
    }
}

/// Answers board and tiles, or the number of the refusal.
pub fn read_plot(bytes: &[u8]) -> Result<(RectangularBoard, Vec<Tile>), u32> {
    let mut rest = Rest(bytes);
    let mut board = None;
    let mut tiles = Vec::new();
    loop {
        let mark = rest.take(2)?;
        match (mark, &mut board) {
            (b"RB" | b"LB" | b"TB", None) => board = Some(read_board(mark, rest.take(2)?)?),
            (b"HO", Some(board)) if tiles.is_empty() => read_hole(rest.take(2)?, board)?,
            (b"TI" | b"OR", Some(_)) => add_tiles(mark, &mut rest, &mut tiles)?,
            (b"EN", Some(_)) if rest.0.is_empty() => break,
            (b"RB" | b"LB" | b"TB" | b"HO" | b"TI" | b"OR" | b"EN", _) => return Err(3),
            _ => return Err(2),
        }
    }
    Ok((board.unwrap(), tiles))
}

fn read_board(mark: &[u8], body: &[u8]) -> Result<RectangularBoard, u32> {
    let (first, second) = (body[0] as usize, body[1] as usize);
    let (width, height) = match mark {
        b"RB" => (first, second),
        b"LB" => (first * second, 2 * second),
        _ => ((2 * first + 1) * second, 2 * second),
    };
    let allowed = 1..=16;
    if (width, height) != (0, 0) && !(allowed.contains(&width) && allowed.contains(&height)) {
        return Err(4);
    }
    Ok(match mark {
        b"RB" => RectangularBoard::new(first, second),
        b"LB" => RectangularBoard::l_board(first, second),
        _ => RectangularBoard::t_board(first, second),
    })
}

/// The body of a record HO: a row and a column.
fn read_hole(body: &[u8], board: &mut RectangularBoard) -> Result<(), u32> {
    add_hole(board, body[0] as usize, body[1] as usize)
}

fn add_tiles(mark: &[u8], rest: &mut Rest, tiles: &mut Vec<Tile>) -> Result<(), u32> {
    let length = rest.take(1)?[0] as usize;
    if length > 32 {
        return Err(5);
    }
    let body = rest.take(length)?;
    if body.iter().any(|code| *code > 7) {
        return Err(5);
    }
    let tile = Tile::new(body.iter().map(|code| DIRECTIONS[*code as usize]).collect());
    let more = if mark == b"OR" { orbit(&tile) } else { vec![tile] };
    if tiles.len() + more.len() > 64 {
        return Err(6);
    }
    tiles.extend(more);
    Ok(())
}
