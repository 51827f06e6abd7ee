//! Second implementation of the network planner, made from document 01, orders
//! 1 to 4 and 6 to 9 of document 02 and a list of calls.
//!
//! - [`plant`]: plant values, their limits, the links in service and the
//!   refusals;
//! - [`listing`]: the listing's reader and writer;
//! - [`net`]: depth-first visit, components, bridges, arcs in use, rule page,
//!   rules by switch;
//! - [`trail`]: distances and the trail of each component;
//! - [`round`]: the round trail of each component;
//! - [`packet`]: packet runs, place, ring, order of links, probes;
//! - [`search`]: the search, its allowance, the order quantity;
//! - [`desk`]: the desk of four consoles;
//! - [`page`]: the buying page's writer and reader;
//! - [`calls`]: every call with its refusals in checking order;
//! - [`cases`]: the case format and its answers;
//! - [`make`]: generator of plants, of links out of service, of damaged listings,
//!   of buying pages and of calls of the desk.

pub mod calls;
pub mod cases;
pub mod desk;
pub mod listing;
pub mod make;
pub mod net;
pub mod packet;
pub mod page;
pub mod plant;
pub mod round;
pub mod search;
pub mod trail;

#[cfg(test)]
mod checks;
