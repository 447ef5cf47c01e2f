//! Compares the proved library, called through its C interface, with
//! `las_plain`, which was written from the documents alone.
//!
//! * [`ours`] calls the library, [`plain`] calls `las_plain`; both give [`answers`].
//! * [`compared::Compared`] calls both, demands equal answers and equal bytes,
//!   and remembers which of the specification's numbers were reached.
//! * [`spec`] builds valid files and sheets from a description; [`damage`]
//!   changes single fields of them; [`boundaries`] has files on both sides of each
//!   file check, [`sheet_ends`] ends of sheets on both sides of each sheet check.
//! * [`sheet_calls`] calls every function that takes a sheet.
//! * [`partly_kept`] has files of which a sheet keeps some, and changes of what
//!   is outside their public part; [`boxed`] the same for a sheet with boxes.
//! * [`rooms`] releases a file into outputs of all telling lengths.
//! * [`cuttings`] says what every cutting list has to be like.
//! * [`lent::Lent`] lends bytes from the middle of a guarded buffer, and
//!   [`lent_list::LentList`] lines from the middle of a guarded list.

pub mod answers;
pub mod boundaries;
pub mod boxed;
pub mod compared;
pub mod cuttings;
pub mod damage;
pub mod lent;
pub mod lent_list;
pub mod ours;
pub mod partly_kept;
pub mod plain;
pub mod rng;
pub mod rooms;
pub mod sheet_calls;
pub mod sheet_ends;
pub mod spec;
