//! An independent engine of the lending kiosk's register, a generator of scripts, and the comparison of both with the
//! program `kiosk`.
//!
//! The engine is written from the pages in `docs/` alone and shares no code with the program, so that a rule that was
//! read wrongly in one of them shows as a difference. It is made to be plain to read: it keeps the whole state in maps,
//! runs a command's steps on a copy of it, and counts the cells afterwards.
//!
//! From the bottom up: [`fault`] has the refusals, [`entry`], [`scale`] and [`store`] what a state is made of, [`tape`]
//! the orders, [`scheme`] and [`opening`] two of the tapes, [`ruling`] and [`register`] the register, [`certificate`]
//! and [`ban`] the other two tapes, [`casting`] and [`check`] the check, [`make`] the making, [`calls`] the C library's
//! call, [`script`] the lines and [`session`] their answers. [`generator`] writes scripts with a [`dice`], [`less`]
//! takes things away from a certificate, and [`statistics`] counts what scripts come to. [`mod@compare`] puts the same
//! scripts to a program, after those that [`worked`] has with their answers; [`printed`] reads what it prints of
//! certificates, and [`second`] asks it about those that it made.

pub mod ban;
pub mod calls;
pub mod casting;
pub mod certificate;
pub mod check;
pub mod compare;
pub mod dice;
pub mod entry;
pub mod fault;
pub mod generator;
pub mod less;
pub mod make;
pub mod opening;
pub mod printed;
pub mod register;
pub mod ruling;
pub mod scale;
pub mod scheme;
pub mod script;
pub mod second;
pub mod session;
pub mod statistics;
pub mod store;
pub mod tape;
pub mod worked;
