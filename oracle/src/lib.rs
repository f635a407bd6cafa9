//! What every tool of the oracle shares: the original with its accessors, stream files, digests, the generator.

pub use vpu_original as original;

pub mod bits;
pub mod calls;
pub mod cuts;
pub mod damage;
pub mod digests;
pub mod floats;
pub mod judge;
pub mod kept;
pub mod maker;
pub mod profiles;
pub mod random;
pub mod reasons;
pub mod replay;
pub mod shapes;
pub mod singles;
pub mod sprites;
pub mod steps;
pub mod stored;
pub mod streams;
pub mod traps;
pub mod vertices;
pub mod watch;
pub mod words;
