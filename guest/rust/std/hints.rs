//! Hints for lists of races: instructions without effect around plain loads of atomic objects.
use crate::arch::asm;

/// Loads an atomic object in place of a call of the kit, and takes no turn. Nothing is ordered by it. The hints say that the load is the
/// library's own, so it is no race with an atomic store.
///
/// # Safety
/// The place may be read.
#[inline]
pub(crate) unsafe fn plain_load<T>(place: *const T) -> T {
    unsafe {
        asm!("sltu x0, x0, x0", options(nostack, preserves_flags));
        let value = place.read_volatile();
        asm!("slt x0, x0, x0", options(nostack, preserves_flags));
        value
    }
}

/// Says that what follows comes after the operation that stored what was loaded from an atomic object.
#[inline]
pub(crate) fn follows<T>(place: *const T) {
    unsafe { asm!("slt x0, {0}, x0", in(reg) place, options(nostack, preserves_flags)) };
}
