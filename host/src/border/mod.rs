//! The border to C, and the only place of unsafe code: the functions of the
//! proved library, and the system calls that the standard library lacks. All
//! that is public here is safe to call.

pub mod library;
pub mod system;
