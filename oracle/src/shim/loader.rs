// Shim for components/loader.rs: a file's number.

use vine_util::new_idx;

new_idx!(pub FileId);
