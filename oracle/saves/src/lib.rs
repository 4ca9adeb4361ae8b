//! Saves made up from a seed, of several flavours, and ways to damage them.

mod bare;
mod damage;
mod flavour;
pub mod ids;
mod narrow;
mod rng;

pub use bare::{bare, save_of_a_build};
pub use damage::{bad_colour, cut_and_changed_colours, flip, random_bytes, random_ids};
pub use flavour::{Flavour, Plan, save, token};
pub use ids::{Payload, RESERVED, payload};
pub use narrow::narrow;
pub use rng::Rng;
