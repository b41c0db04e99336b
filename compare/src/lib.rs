//! The application's end of a FastCGI 1.0 connection in ordinary Rust: a second opinion on the rules, written from
//! their text and not from the proved code. Beside it the twin of the console, and the scripts that compare the two.
//! And the same for the web server's end: `server`, the twin of the bench in `bench`, and `bench_scripts`.

pub mod answer;
pub mod bench;
pub mod bench_scripts;
pub mod calls;
pub mod cases;
pub mod console;
pub mod correction;
pub mod differ;
pub mod digest;
pub mod drive;
pub mod lift;
pub mod output;
pub mod pairs;
pub mod queue;
pub mod random;
pub mod readings;
pub mod receiver;
pub mod replay;
pub mod reply;
pub mod rounds;
pub mod scripts;
pub mod server;
pub mod shape;
pub mod shuffles;
pub mod sides;
pub mod state;
pub mod stated;
pub mod tally;
pub mod turns;
pub mod wire;
