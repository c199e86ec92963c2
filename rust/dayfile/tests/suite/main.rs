//! Day files, their text, the tool, and the proved program `day` on them.

mod bills;
mod boards;
mod courses;
mod files;
mod orders;
mod program;
mod run;
mod samples;
mod text;
mod tool;
