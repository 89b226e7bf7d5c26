//! The border to the proved library: the only module with `unsafe`. Each
//! function takes slices, hands on pointer and length, and gives back the
//! library's numbers as they are, so that a comparison sees all of them.

use std::ffi::c_uint;

extern "C" {
    fn hull_make(
        image: *mut u8,
        image_len: usize,
        kind: u32,
        total: u32,
        form: u32,
        rule: *const u8,
        rule_len: usize,
    ) -> c_uint;
    fn hull_command(
        image: *mut u8,
        image_len: usize,
        pool: *mut u8,
        pool_len: usize,
        command: *const u8,
        command_len: usize,
        response: *mut u8,
        response_len: usize,
        messaging: u16,
        external: u16,
        user: u16,
        channels: u8,
        numbers: *mut u32,
    ) -> c_uint;
    fn hull_report(image: *const u8, image_len: usize, numbers: *mut u32) -> c_uint;
    fn hull_rule(
        image: *const u8,
        image_len: usize,
        pool: *const u8,
        pool_len: usize,
        slot: u32,
        numbers: *mut u32,
    ) -> c_uint;
    fn hull_sound(image: *const u8, image_len: usize) -> c_uint;
}

/// The maker's answer: 0, 2, 3 or 4. Kind and form may be any numbers.
pub fn make(image: &mut [u8], kind: u32, total: u32, form: u32, rule: &[u8]) -> u32 {
    let (start, length) = (image.as_mut_ptr(), image.len());
    // SAFETY: both pointers come from live slices with their own lengths, and
    // stay valid for the call. The image is borrowed for this call alone, so
    // nothing else reads or writes it, and the rule cannot overlap it. The
    // library keeps no pointer after it returns.
    unsafe { hull_make(start, length, kind, total, form, rule.as_ptr(), rule.len()) }
}

/// The answer in the high half of the first number, the word in its low half.
/// Then the call's three numbers: how many bytes of the response were written;
/// what a security refusal lacks, 1 or 2 with word 6982 and else 0; and one that
/// is 0. They start as no call could leave them, to show that each is written.
pub fn command(
    image: &mut [u8],
    pool: &mut [u8],
    command: &[u8],
    response: &mut [u8],
    sets: [u16; 3],
    channels: u8,
) -> (u32, [u32; 3]) {
    let [messaging, external, user] = sets;
    let mut numbers = [u32::MAX; 3];
    // SAFETY: as for `make`: live slices with their own lengths, no pointer
    // kept. Image, pool and response are borrowed for this call alone, so that
    // nothing else reads or writes them, and they overlap neither one another
    // nor the command. The library writes three numbers, and `numbers`, which
    // is this function's own, has room for three.
    let both = unsafe {
        hull_command(
            image.as_mut_ptr(),
            image.len(),
            pool.as_mut_ptr(),
            pool.len(),
            command.as_ptr(),
            command.len(),
            response.as_mut_ptr(),
            response.len(),
            messaging,
            external,
            user,
            channels,
            numbers.as_mut_ptr(),
        )
    };
    (both, numbers)
}

/// The answer; total, room, children and files beneath, all 0 with answer 1.
/// They start as no report could leave them, to show that each is written.
pub fn report(image: &[u8]) -> (u32, [u32; 4]) {
    let mut numbers = [u32::MAX; 4];
    // SAFETY: the image is a live slice with its own length, only read; the
    // library writes four numbers, and `numbers` has room for four.
    let answer = unsafe { hull_report(image.as_ptr(), image.len(), numbers.as_mut_ptr()) };
    (answer, numbers)
}

/// The answer; where the rule that decides on the file in a slot stands, 0, 1 or
/// 2 for nowhere, in the image and in the pool, its first byte there and how many
/// bytes it has. They start as no call could leave them, to show that each is
/// written.
pub fn rule(image: &[u8], pool: &[u8], slot: u32) -> (u32, [u32; 3]) {
    let mut numbers = [u32::MAX; 3];
    let (image_start, pool_start) = (image.as_ptr(), pool.as_ptr());
    let written = numbers.as_mut_ptr();
    // SAFETY: image and pool are live slices with their own lengths, only read;
    // the library writes three numbers, and `numbers` has room for three.
    let answer =
        unsafe { hull_rule(image_start, image.len(), pool_start, pool.len(), slot, written) };
    (answer, numbers)
}

/// 1 if the image is sound, else 0.
pub fn sound(image: &[u8]) -> u32 {
    // SAFETY: the image is a live slice with its own length, only read.
    unsafe { hull_sound(image.as_ptr(), image.len()) }
}
