//! Hosts over stores that fail, alone and as a lead with its standby; guards; many records at once.

mod alone;
mod bring_in;
mod cases;
mod disk;
mod pair;
mod random;
