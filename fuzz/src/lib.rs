//! Hostile input for the proved library, through its C interface.

pub mod calls;
pub mod faulty;
pub mod inputs;
pub mod mutation;
pub mod pages;
pub mod shapes;
pub mod state;
pub mod system;
pub mod watch;
pub mod worker;
