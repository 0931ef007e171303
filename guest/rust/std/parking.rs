//! Parking by the kit's mutex and condition variable. The mutex guards the token, so there is no atomic object.
use crate::cell::UnsafeCell;
use crate::pin::Pin;
use crate::sys::sync::{Condvar, Mutex};
use crate::time::Duration;

pub struct Parker {
    mutex: Mutex,
    condition: Condvar,
    has_token: UnsafeCell<bool>,
}

unsafe impl Send for Parker {}
unsafe impl Sync for Parker {}

impl Parker {
    /// # Safety
    /// The place may be written.
    pub unsafe fn new_in_place(place: *mut Parker) {
        let parker = Parker { mutex: Mutex::new(), condition: Condvar::new(), has_token: UnsafeCell::new(false) };
        unsafe { place.write(parker) };
    }

    /// # Safety
    /// The caller is the thread that the parker belongs to.
    pub unsafe fn park(self: Pin<&Self>) {
        self.mutex.lock();
        unsafe {
            while !self.has_token.get().replace(false) {
                self.condition.wait(&self.mutex);
            }
            self.mutex.unlock();
        }
    }

    /// # Safety
    /// As `park`.
    pub unsafe fn park_timeout(self: Pin<&Self>, time: Duration) {
        self.mutex.lock();
        unsafe {
            if !self.has_token.get().replace(false) {
                self.condition.wait_timeout(&self.mutex, time);
                self.has_token.get().write(false);
            }
            self.mutex.unlock();
        }
    }

    pub fn unpark(self: Pin<&Self>) {
        self.mutex.lock();
        unsafe {
            self.has_token.get().write(true);
            self.condition.notify_one();
            self.mutex.unlock();
        }
    }
}
