//! The server as a process, driven over its line byte for byte. Expected bytes are worked out from documents 01 and 02.

mod ascii;
mod ascii_echo;
mod check;
mod echo;
mod files;
mod harness;
mod line;
mod link;
mod options;
mod radio;
mod salvage;
mod sensors;
mod succession;
mod technician;
mod volume;
mod worked;
