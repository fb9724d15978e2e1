//! The generated pages are current, what they show is as it should be, and the tool that writes
//! them takes sources apart as it should.

mod closure;
mod current;
mod faults;
mod layout;
mod methods;
mod small;
mod wrong;
