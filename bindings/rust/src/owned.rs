//! Owners, which free their objects when they are dropped.
use crate::ffi::{Handle, HP_IN_USE};
use crate::numbers::{Node, NodeIterator, Observer, Range, StaticRange, TreeWalker};
use crate::session::Session;
use sealed::{LetGo, Sealed};
use std::ops::{Deref, DerefMut};
use std::sync::atomic::{AtomicBool, Ordering};
use std::sync::{Arc, Mutex, MutexGuard, PoisonError, Weak};
use std::{fmt, mem};

mod sealed {
    use crate::ffi::Handle;

    /// The call that frees an object, and the object's number.
    #[derive(Clone, Copy)]
    pub struct LetGo {
        pub(super) call: fn(&mut Handle, u32) -> Result<(), u8>,
        pub(super) number: u32,
    }

    pub trait Sealed: Copy {
        fn let_go(self) -> LetGo;
    }
}

/// What can have an owner: the numbers of all kinds of objects.
pub trait Object: Sealed {}

macro_rules! objects {
    ($($name:ident: $call:ident,)*) => {
        $(
            impl Object for $name {}

            impl Sealed for $name {
                fn let_go(self) -> LetGo {
                    LetGo { call: Handle::$call, number: self.number() }
                }
            }
        )*
    };
}

objects! {
    Node: discard,
    Range: release_range,
    StaticRange: release_static_range,
    NodeIterator: release_iterator,
    TreeWalker: release_walker,
    Observer: release_observer,
}

/// The owner of an object: when it is dropped, the object is freed. [`Session::own`] makes one, and `*owner` is the number.
///
/// The objects of dropped owners are freed at the session's next command or line, before it does anything else. An owner may be dropped in
/// another thread, and after its session. If the object is gone already, nothing happens.
///
/// A range, an iterator, a walker or an observer is released. A node is discarded with its descendants, unless it has a parent then, or
/// an object that stays refers to one of them: such a node is left alone for good.
///
/// ```
/// use huckleport::{Node, Session, SHOW_ALL};
///
/// # fn main() -> Result<(), huckleport::Exception> {
/// let mut session = Session::new()?;
/// let fragment = session.create_fragment(Node::DOCUMENT)?;
/// let iterator = session.create_iterator(fragment, SHOW_ALL, &[])?;
/// let iterator = session.own(iterator);
/// assert_eq!(session.next_node(*iterator)?, Some(fragment));
/// drop(iterator);
/// session.discard(fragment)?; // nothing refers to it any more
/// # Ok(())
/// # }
/// ```
#[must_use = "an owner that is not kept frees its object at once"]
pub struct Owned<T> {
    object: T,
    let_go: Option<LetGo>,
    dropped: Weak<Dropped>,
}

impl<T: Copy> Owned<T> {
    /// The number, of an object that stays from now on.
    pub fn into_inner(mut self) -> T {
        self.let_go = None;
        self.object
    }
}

impl<T> Deref for Owned<T> {
    type Target = T;

    fn deref(&self) -> &T {
        &self.object
    }
}

impl<T> Drop for Owned<T> {
    fn drop(&mut self) {
        // (where the session is gone, so is the object)
        if let (Some(it), Some(dropped)) = (self.let_go, self.dropped.upgrade()) {
            dropped.add(it);
        }
    }
}

impl<T: fmt::Debug> fmt::Debug for Owned<T> {
    fn fmt(&self, to: &mut fmt::Formatter<'_>) -> fmt::Result {
        to.debug_tuple("Owned").field(&self.object).finish()
    }
}

/// Owners.
impl Session {
    /// Makes the owner of an object, which is freed when the owner is dropped.
    pub fn own<T: Object>(&self, object: T) -> Owned<T> {
        Owned { object, let_go: Some(object.let_go()), dropped: Arc::downgrade(&self.handle.dropped) }
    }
}

/// The objects of dropped owners, until the session frees them.
#[derive(Default)]
struct Dropped {
    /// Whether there are any. It is written under the lock of the list, so that a session reads it without a lock if there are none.
    is_any: AtomicBool,
    list: Mutex<Vec<LetGo>>,
}

impl Dropped {
    fn list(&self) -> MutexGuard<'_, Vec<LetGo>> {
        self.list.lock().unwrap_or_else(PoisonError::into_inner)
    }

    fn add(&self, it: LetGo) {
        let mut list = self.list();
        list.push(it);
        self.is_any.store(true, Ordering::Relaxed);
    }

    fn take(&self) -> Vec<LetGo> {
        let mut list = self.list();
        self.is_any.store(false, Ordering::Relaxed);
        mem::take(&mut *list)
    }
}

/// The handle of a session, and the objects of its dropped owners. Every call that may change the session reaches the handle by [`DerefMut`], so that
/// these objects are freed before it.
pub(crate) struct OwningHandle {
    handle: Handle,
    dropped: Arc<Dropped>,
}

impl OwningHandle {
    pub(crate) fn new(handle: Handle) -> Self {
        Self { handle, dropped: Arc::default() }
    }

    /// Frees the objects of dropped owners. Those in use are tried again as long as others are freed, since these may have referred to them.
    pub(crate) fn settle(&mut self) {
        if !self.dropped.is_any.load(Ordering::Relaxed) {
            return;
        }
        let mut left = self.dropped.take();
        let mut before = usize::MAX;
        while left.len() < before {
            before = left.len();
            left.retain(|it| (it.call)(&mut self.handle, it.number) == Err(HP_IN_USE));
        }
    }

    /// Returns the handle with the last answer: the objects of dropped owners are freed later.
    pub(crate) fn unsettled(&mut self) -> &mut Handle {
        &mut self.handle
    }
}

impl Deref for OwningHandle {
    type Target = Handle;

    fn deref(&self) -> &Handle {
        &self.handle
    }
}

impl DerefMut for OwningHandle {
    fn deref_mut(&mut self) -> &mut Handle {
        self.settle();
        &mut self.handle
    }
}
