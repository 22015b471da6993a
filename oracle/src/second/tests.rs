//! The rules' near pairs and the edges of each step.

mod canvas;
mod cells;
mod ellipse;
mod entries;
mod runs;
mod steps;
mod turns;
