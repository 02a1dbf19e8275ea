//! Stand-in for the crate `atomic_refcell`: a cell whose borrows are counted and refused where they clash.

use std::cell::UnsafeCell;
use std::fmt;
use std::ops::{Deref, DerefMut};
use std::sync::atomic::{AtomicUsize, Ordering};

/// The count of a cell that is borrowed exclusively.
const EXCLUSIVE: usize = usize::MAX;

#[derive(Default)]
pub struct AtomicRefCell<T> {
    borrows: AtomicUsize,
    value: UnsafeCell<T>,
}

unsafe impl<T: Send> Send for AtomicRefCell<T> {}
unsafe impl<T: Send + Sync> Sync for AtomicRefCell<T> {}

impl<T> AtomicRefCell<T> {
    pub const fn new(value: T) -> Self {
        Self {
            borrows: AtomicUsize::new(0),
            value: UnsafeCell::new(value),
        }
    }

    pub fn borrow(&self) -> AtomicRef<'_, T> {
        self.borrows
            .fetch_update(Ordering::Acquire, Ordering::Relaxed, |count| {
                (count < EXCLUSIVE - 1).then(|| count + 1)
            })
            .expect("already borrowed exclusively");
        AtomicRef { cell: self }
    }

    pub fn borrow_mut(&self) -> AtomicRefMut<'_, T> {
        self.borrows
            .compare_exchange(0, EXCLUSIVE, Ordering::Acquire, Ordering::Relaxed)
            .expect("already borrowed");
        AtomicRefMut { cell: self }
    }

    pub fn get_mut(&mut self) -> &mut T {
        self.value.get_mut()
    }

    pub fn as_ptr(&self) -> *mut T {
        self.value.get()
    }
}

impl<T: fmt::Debug> fmt::Debug for AtomicRefCell<T> {
    fn fmt(&self, f: &mut fmt::Formatter<'_>) -> fmt::Result {
        f.debug_tuple("AtomicRefCell").field(&*self.borrow()).finish()
    }
}

pub struct AtomicRef<'a, T> {
    cell: &'a AtomicRefCell<T>,
}

impl<T> Deref for AtomicRef<'_, T> {
    type Target = T;

    fn deref(&self) -> &T {
        unsafe { &*self.cell.value.get() }
    }
}

impl<T> Drop for AtomicRef<'_, T> {
    fn drop(&mut self) {
        self.cell.borrows.fetch_sub(1, Ordering::Release);
    }
}

pub struct AtomicRefMut<'a, T> {
    cell: &'a AtomicRefCell<T>,
}

impl<T> Deref for AtomicRefMut<'_, T> {
    type Target = T;

    fn deref(&self) -> &T {
        unsafe { &*self.cell.value.get() }
    }
}

impl<T> DerefMut for AtomicRefMut<'_, T> {
    fn deref_mut(&mut self) -> &mut T {
        unsafe { &mut *self.cell.value.get() }
    }
}

impl<T> Drop for AtomicRefMut<'_, T> {
    fn drop(&mut self) {
        self.cell.borrows.store(0, Ordering::Release);
    }
}
