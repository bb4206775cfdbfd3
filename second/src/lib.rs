//! A serial loader, its files and its host. The product is compared with it, so
//! nothing is shared with the product.

pub mod bench;
pub mod boundary;
pub mod cases;
pub mod hex;
pub mod line;
pub mod listing;
pub mod loader;
pub mod log;
pub mod map;
pub mod packet;
pub mod plain;
pub mod port;
pub mod receiver;
pub mod refusal;
pub mod session;
pub mod stations;
pub mod units;

pub use refusal::Refusal;
