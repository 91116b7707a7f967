//! Reads commands from standard input, one a line, and prints one answer line each. The forms of
//! commands and answers stand in ../../README.md.
//!
//! If the Rust panics, the answer is `panic`. A command that is not understood, or a check of the
//! driver that fails, ends the run with a message and the exit code 1.

mod boards;
mod cuttings;
mod plot;
mod plotfile;
mod text;
#[path = "../upstream/cli/tiler.rs"]
mod tiler;
mod tiles;
mod walk;

use dcc_tiler::board::RectangularBoard;
use dcc_tiler::marks::Marks;
use dcc_tiler::tile::{Tile, TileCollection};
use std::io::BufRead;
use std::panic::{PanicHookInfo, catch_unwind, set_hook};
use std::process::ExitCode;
use std::sync::Mutex;
use text::{read_bytes, read_direction, read_number, read_tile, read_tiles, tile_text, tiles_text};

/// The last panic: whether it arose in a file of the driver, and its message.
static PANIC: Mutex<(bool, String)> = Mutex::new((false, String::new()));

/// A panic that arises in neither the driver's files nor the Rust's is the Rust's too: it comes
/// from the standard library, as where `count_tilings` looks for a board that isn't there.
fn note_panic(info: &PanicHookInfo) {
    let file = info.location().map_or("", |place| place.file());
    let ours = file.starts_with("src/") && !file.contains("../upstream/");
    *PANIC.lock().unwrap() = (ours, info.to_string());
}

fn main() -> ExitCode {
    set_hook(Box::new(note_panic));
    for (number, line) in std::io::stdin().lock().lines().enumerate() {
        let line = line.expect("a line of text");
        match answer_or_panic(&line) {
            Ok(answer) => println!("{answer}"),
            Err(message) => {
                eprintln!("oracle: line {}: {message}", number + 1);
                return ExitCode::FAILURE;
            }
        }
    }
    ExitCode::SUCCESS
}

fn answer_or_panic(line: &str) -> Result<String, String> {
    catch_unwind(|| answer(line)).unwrap_or_else(|_| match &*PANIC.lock().unwrap() {
        (true, message) => Err(message.clone()),
        (false, _) => Ok("panic".to_string()),
    })
}

fn answer(line: &str) -> Result<String, String> {
    let fields: Vec<&str> = line.split(' ').collect();
    Ok(match fields[..] {
        ["direction", code] => tiles::direction(read_direction(code)?),
        ["orbit", path] => tiles_text(&tiles::orbit(&read_tile(path)?)),
        ["tile", path] => tiles::tile(&read_tile(path)?),
        ["l", n] => tile_text(&Tile::l_tile(read_number(n)?)),
        ["t", n] => tile_text(&Tile::t_tile(read_number(n)?)),
        ["single", list] => collection(list)?.contains_single_tile().to_string(),
        ["size", path] => tiles::size(&read_tile(path)?).to_string(),
        ["plot", bytes] => plot::plot(&read_bytes(bytes)?).replace('\n', "|"),
        ["new", width, height] => {
            boards::made(RectangularBoard::new(read_number(width)?, read_number(height)?))
        }
        ["lb", n, scale] => {
            boards::made(RectangularBoard::l_board(read_number(n)?, read_number(scale)?))
        }
        ["tb", n, scale] => {
            boards::made(RectangularBoard::t_board(read_number(n)?, read_number(scale)?))
        }
        ["full", width, height, fixed, laid] => {
            read_board(width, height, fixed, laid)?.is_all_marked().to_string()
        }
        ["hole", width, height, fixed, laid, row, column] => {
            let size = (read_number(width)?, read_number(height)?);
            let (row, column) = (read_number(row)?, read_number(column)?);
            boards::hole(size, Marks::read(fixed)?, Marks::read(laid)?, row, column)
        }
        [name, width, height, fixed, laid, list, ref rooms @ ..] => {
            let board = read_board(width, height, fixed, laid)?;
            let rooms: Result<Vec<_>, _> = rooms.iter().map(|room| read_number(room)).collect();
            answer_with_tiles(name, board, Marks::read(fixed)?, collection(list)?, &rooms?)
                .ok_or(format!("no such command: {line}"))?
        }
        _ => return Err(format!("no such command: {line}")),
    })
}

/// Answers a command on a board and tiles, with rooms behind them or with none.
fn answer_with_tiles(
    name: &str,
    board: RectangularBoard,
    fixed: Marks,
    tiles: TileCollection,
    rooms: &[usize],
) -> Option<String> {
    Some(match (name, rooms) {
        ("children", []) => boards::children(board, fixed, tiles),
        ("layers", []) => boards::layers(board, tiles),
        ("layers", [room]) => boards::layers_in(board, tiles, *room),
        ("cuttings", []) => cuttings::cuttings(board, tiles),
        ("cuttings", [room]) => cuttings::cuttings_in(board, tiles, *room),
        ("graph", []) => boards::graph(board, tiles),
        ("graph", [nodes, edges]) => boards::graph_in(board, tiles, *nodes, *edges),
        ("weigh", [most]) => boards::weigh(board, tiles, *most),
        ("tilings", []) => boards::tilings(board, tiles),
        ("one", []) => boards::one(board, tiles),
        _ => return None,
    })
}

fn read_board(
    width: &str,
    height: &str,
    fixed: &str,
    laid: &str,
) -> Result<RectangularBoard, String> {
    let size = (read_number(width)?, read_number(height)?);
    boards::board_of(size, Marks::read(fixed)?, Marks::read(laid)?)
}

fn collection(list: &str) -> Result<TileCollection, String> {
    Ok(TileCollection::new(read_tiles(list)?))
}
