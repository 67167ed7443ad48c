//! The proved library against a model: an implementation of its own, from the specification's words. Acts, soundness, damage.

mod acts;
mod bounds;
mod built;
mod calendar;
mod damage;
mod data;
mod days;
mod faults;
mod ffi;
mod geometry;
mod judge;
mod large;
mod layout;
mod lent;
mod model;
mod platform;
mod rules;
mod run;
mod series;
mod shapes;
mod sides;
mod space;
mod stages;
mod ties;
mod unread;
mod unused;
mod weights;

fn main() {
    let mut run = run::Run::new();
    bounds::all(&mut run);
    sides::all(&mut run);
    large::all(&mut run);
    series::all(&mut run);
    built::all(&mut run);
    space::all(&mut run);
    stages::all(&mut run);
    ties::all(&mut run);
    weights::all(&mut run);
    days::all(&mut run);
    unread::all(&mut run);
    unused::all(&mut run);
    rules::all(&mut run);
    damage::all(&mut run);
    if !run.finish() {
        std::process::exit(1);
    }
}
