//! Stays in the kit's monitor. Operations on atomic objects take no turns of their own there, and none of a program's own code runs but
//! what it hooks to the creation of threads.
use crate::marker::PhantomData;

unsafe extern "C" {
    fn dthreads_stay_begin();
    fn dthreads_stay_end();
    fn dthreads_stay_on();
}

/// The calling thread leaves the monitor only to wait, as long as this lives.
pub(crate) struct Stay(PhantomData<*mut ()>);

impl Stay {
    #[inline]
    pub(crate) fn begin() -> Stay {
        unsafe { dthreads_stay_begin() };
        Stay(PhantomData)
    }
}

impl Drop for Stay {
    #[inline]
    fn drop(&mut self) {
        unsafe { dthreads_stay_end() };
    }
}

/// Does something, which doesn't unwind, in a stay that goes on up to the next call of the kit. That call follows at once.
#[inline]
pub(crate) fn up_to_next_call(does: impl FnOnce()) {
    unsafe { dthreads_stay_begin() };
    does();
    unsafe { dthreads_stay_on() };
}
