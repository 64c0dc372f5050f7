//! What the yardstick's two programs share.
//! It does what one would write by hand: an expanded list of weights, a sorted ring, a hash set of the backends seen.
pub mod answer;
pub mod group;
pub mod registry;
pub mod script;
pub mod selection;
pub mod world;
