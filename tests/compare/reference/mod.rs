//! A second implementation of document 01, written from its text, the RFCs and the readings of
//! docs/DECISIONS.md, without sight of the proved code or the model: it chooses a preferred parent,
//! writes the containers for the next hop, says what is kept of a run that is fed in parts, lists a
//! container, and tells why a candidate is the parent or is not, and in what way it falls short. It
//! allocates nothing and depends on nothing outside this folder.

mod call;
mod colour;
mod constraint;
pub mod data;
mod filling;
mod finding;
pub mod hop;
pub mod joined;
mod kept;
mod listing;
mod object;
mod option;
pub mod rank;
pub mod reason;
mod reserved;
mod standing;
mod unmet;
mod verdict;
pub mod way;

pub use call::choose;
pub use finding::examine;
pub use kept::Kept;
pub use listing::{list, LISTING_ROOM};
pub use reason::why;
