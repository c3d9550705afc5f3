//! The bytes of stripes: any threads may call these at once.
use lrc_embed_sys::{self as sys, lrc_bytes, lrc_buffer, lrc_recipe};

use crate::{done, Fault};

/// The recipe of a fragment of a stripe of a code where some are missing; fragment f is bit f. Nothing if what is not missing
/// does not determine it.
pub fn recipe_of(code: u8, missing: u16, fragment: u8) -> Result<Option<lrc_recipe>, Fault> {
    let mut recipe = lrc_recipe::default();
    match unsafe { sys::lrc_embed_recipe_of(code, missing, fragment, &mut recipe) } {
        sys::LRC_UNDETERMINED => Ok(None),
        status => done(status).map(|()| Some(recipe)),
    }
}

/// The generator matrix of a code, row by row: a row for each fragment, with 12 coefficients, or 6 of the narrow code.
pub fn matrix(code: u8) -> Result<Vec<u8>, Fault> {
    let (mut rows, mut length) = (vec![0; sys::LRC_FRAGMENTS * 12], 0);
    done(unsafe { sys::lrc_embed_matrix(code, rows.as_mut_ptr(), rows.len(), &mut length) })?;
    rows.truncate(length);
    Ok(rows)
}

/// Writes the four parities of a stripe, of its data fragments in order. All have one length.
pub fn encode(code: u8, data: &[&[u8]], parities: &mut [&mut [u8]]) -> Result<(), Fault> {
    let data = seen(data);
    let mut parities: Vec<_> = parities.iter_mut().map(|it| lrc_buffer { at: it.as_mut_ptr(), length: it.len() }).collect();
    done(unsafe { sys::lrc_embed_encode(code, data.as_ptr(), data.len(), parities.as_mut_ptr(), parities.len()) })
}

/// Writes what a recipe makes of the fragments of a stripe, which stand by number; those that it does not read may be empty.
pub fn rebuild(recipe: &lrc_recipe, fragments: &[&[u8]], rebuilt: &mut [u8]) -> Result<(), Fault> {
    let fragments = seen(fragments);
    done(unsafe { sys::lrc_embed_rebuild(recipe, fragments.as_ptr(), fragments.len(), rebuilt.as_mut_ptr(), rebuilt.len()) })
}

fn seen(buffers: &[&[u8]]) -> Vec<lrc_bytes> {
    buffers.iter().map(|it| lrc_bytes { at: it.as_ptr(), length: it.len() }).collect()
}
