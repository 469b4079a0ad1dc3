//! Files of every sort from a seed, and the proved checker as safe functions.

pub mod damage;
pub mod files;
pub mod record;
pub mod rng;
pub mod sketch;
pub mod verified;
