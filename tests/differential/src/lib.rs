//! The kernel's static library, and the programs over it, against the reference on generated inputs. A seed says it all: every
//! case can be played again from its seed and number. Assumes an archive of the kernel to link, and Linux.
pub mod books;
pub mod call;
pub mod cases;
pub mod compare;
pub mod crash;
pub mod damage;
pub mod events;
pub mod lend;
pub mod names;
pub mod noise;
pub mod play;
pub mod program;
pub mod random;
pub mod report;
pub mod shrink;
pub mod view;
pub mod widen;
