//! The library that tiler.rs asks for: the unchanged files of the Rust, which build.sh copies to
//! ../upstream, and a collector in the place of the renderer.

#[path = "../upstream/board.rs"]
pub mod board;
#[path = "../upstream/graph.rs"]
pub mod graph;
#[path = "../upstream/tile.rs"]
pub mod tile;

/// The Rust's renderer. It is compiled and never called.
#[path = "../upstream/render.rs"]
pub mod render_upstream;

pub mod marks;

/// What tiler.rs finds under the renderer's name: it draws nothing and keeps each tiling.
pub mod render {
    use crate::board::RectangularBoard;
    use crate::marks::Marks;
    use std::sync::Mutex;

    static COLLECTED: Mutex<Vec<Vec<Marks>>> = Mutex::new(Vec::new());

    /// Keeps the marks of one tiling's boards as handed over, the full board first.
    pub fn render_single_tiling_from_vec(boards: Vec<&RectangularBoard>) -> String {
        let list = boards.into_iter().map(Marks::of).collect();
        COLLECTED.lock().unwrap().push(list);
        String::new()
    }

    /// Hands over what was collected since the last call.
    pub fn take_collected() -> Vec<Vec<Marks>> {
        std::mem::take(&mut *COLLECTED.lock().unwrap())
    }

    /// The collector has the type of the function that it stands for.
    const _: [fn(Vec<&RectangularBoard>) -> String; 2] =
        [crate::render_upstream::render_single_tiling_from_vec, render_single_tiling_from_vec];
}
