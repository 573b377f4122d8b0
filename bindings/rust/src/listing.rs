use crate::ffi;

/// So many bytes suffice for any listing.
const ROOM: usize = 393_255;

/// Lists the edges of the blocks of a script, a line each, or says which line of the script is refused. Document 01
/// has the form of both ("Edge listing"). The call takes about 420,000 bytes of stack.
pub fn list(script: &[u8]) -> Vec<u8> {
    let mut out = vec![0; ROOM];
    // SAFETY: each pointer stands with the length of its slice, and the archive checks the rest.
    let len =
        unsafe { ffi::deblock_list(script.as_ptr(), script.len(), out.as_mut_ptr(), out.len()) };
    out.truncate(len);
    out
}
