//! The bridge against the archive, and the encoder against document 01.
mod any_case;
mod example;
mod join;
mod kinds;
mod lent;
mod limits;
mod margin;
mod random;
mod refusals;
mod rows;
mod store;
mod support;
mod thin;
