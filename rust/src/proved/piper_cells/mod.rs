//! Places for values that two threads share without a lock: a cell for one value, which a token
//! opens, and a space that is lent for as long as either of two leases is there.
/* #![tactic(auto)] */

pub mod lent_space;
pub mod token_cell;
