//! Reading of commands' fields, and the text form of tiles: a path is a string of the codes 0 to
//! 7, `-` the empty path; tiles are joined by commas, `.` is no tile.

use dcc_tiler::tile::{Direction, Tile};

/// The directions in the order of their codes.
pub const DIRECTIONS: [Direction; 8] = [
    Direction::Up,
    Direction::Down,
    Direction::Left,
    Direction::Right,
    Direction::UpLeft,
    Direction::UpRight,
    Direction::DownRight,
    Direction::DownLeft,
];

/// A direction's code is its place in the Rust's own list.
pub fn code(direction: Direction) -> usize {
    direction as usize
}

const _: () = {
    let mut i = 0;
    while i < 8 {
        assert!(DIRECTIONS[i] as usize == i);
        i += 1;
    }
};

pub fn read_number(text: &str) -> Result<usize, String> {
    text.parse().map_err(|_| format!("not a number: {text}"))
}

pub fn read_direction(text: &str) -> Result<Direction, String> {
    let number = read_number(text)?;
    DIRECTIONS.get(number).copied().ok_or(format!("not a direction: {text}"))
}

pub fn read_tile(text: &str) -> Result<Tile, String> {
    if text == "-" {
        return Ok(Tile::box_tile());
    }
    if text.is_empty() {
        return Err("a path is missing".to_string());
    }
    let direction = |c: char| match c.to_digit(8) {
        Some(code) => Ok(DIRECTIONS[code as usize]),
        None => Err(format!("not a path: {text}")),
    };
    Ok(Tile::new(text.chars().map(direction).collect::<Result<_, _>>()?))
}

pub fn read_tiles(text: &str) -> Result<Vec<Tile>, String> {
    if text == "." {
        return Ok(Vec::new());
    }
    text.split(',').map(read_tile).collect()
}

/// Reads a file's bytes, two hexadecimal digits each; `-` is the empty file.
pub fn read_bytes(text: &str) -> Result<Vec<u8>, String> {
    if text == "-" {
        return Ok(Vec::new());
    }
    if text.is_empty() || text.len() % 2 != 0 || !text.bytes().all(|c| c.is_ascii_hexdigit()) {
        return Err(format!("not bytes: {text}"));
    }
    let byte = |i| u8::from_str_radix(&text[2 * i..2 * i + 2], 16).unwrap();
    Ok((0..text.len() / 2).map(byte).collect())
}

pub fn tile_text(tile: &Tile) -> String {
    if tile.directions.is_empty() {
        return "-".to_string();
    }
    tile.directions.iter().map(|d| code(*d).to_string()).collect()
}

pub fn tiles_text(tiles: &[Tile]) -> String {
    if tiles.is_empty() {
        return ".".to_string();
    }
    tiles.iter().map(tile_text).collect::<Vec<_>>().join(",")
}
