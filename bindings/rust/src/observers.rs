//! The commands of mutation observers.
use crate::answers::{Observers, Part};
use crate::exception::{Exception, Result};
use crate::ffi::hp_options;
use crate::filters::Listed;
use crate::numbers::{Node, Observer};
use crate::records::{Notices, Records};
use crate::session::Session;

/// The options of an observer: the members of the standard's `MutationObserverInit`. Each of them may be absent.
#[derive(Clone, Copy, Debug, Default, PartialEq, Eq, Hash)]
pub struct Options<'a> {
    /// Whether children are observed.
    pub child_list: Option<bool>,
    /// Whether attributes are observed.
    pub attributes: Option<bool>,
    /// Whether data is observed.
    pub character_data: Option<bool>,
    /// Whether all below the node is observed too.
    pub subtree: Option<bool>,
    /// Whether records have the value that an attribute had.
    pub attribute_old_value: Option<bool>,
    /// Whether records have the data that was there.
    pub character_data_old_value: Option<bool>,
    /// The names of the attributes that are observed.
    pub attribute_filter: Option<&'a [&'a str]>,
}

fn choice(given: Option<bool>) -> u8 {
    given.map_or(2, u8::from)
}

impl Options<'_> {
    fn handed(&self) -> hp_options {
        hp_options {
            child_list: choice(self.child_list),
            attributes: choice(self.attributes),
            character_data: choice(self.character_data),
            subtree: choice(self.subtree),
            attribute_old_value: choice(self.attribute_old_value),
            character_data_old_value: choice(self.character_data_old_value),
            attribute_filter: self.attribute_filter.is_some().into(),
        }
    }
}

/// Mutation observers.
impl Session {
    /// Makes a mutation observer.
    pub fn create_observer(&mut self) -> Result<Observer> {
        self.handle.create_observer().map(Observer::from_number).map_err(Exception::of)
    }

    /// Lets an observer watch a node.
    pub fn observe(&mut self, observer: Observer, node: Node, options: &Options<'_>) -> Result<()> {
        let names = Listed::new(options.attribute_filter.unwrap_or_default().iter().copied());
        let status = self.handle.observe(observer.number(), node.number(), &options.handed(), &names.bytes, &names.lengths);
        status.map_err(Exception::of)
    }

    /// Lets an observer watch nothing more.
    pub fn disconnect(&mut self, observer: Observer) -> Result<()> {
        self.handle.disconnect(observer.number()).map_err(Exception::of)
    }

    /// Takes the records of an observer.
    pub fn take_records(&mut self, observer: Observer) -> Result<Records<'_>> {
        self.handle.take_records(observer.number()).map_err(Exception::of)?;
        let count = self.handle.count().map_err(Exception::of)?;
        Ok(Records::new(Part::whole(&self.handle), count))
    }

    /// Hands its records to each observer that waits, all at once. For callbacks there is
    /// [`take_pending`](Session::take_pending).
    pub fn notify(&mut self) -> Result<Notices<'_>> {
        self.handle.notify().map_err(Exception::of)?;
        let count = self.handle.count().map_err(Exception::of)?;
        Ok(Notices::new(Part::whole(&self.handle), count))
    }

    /// Returns the observers that wait to be notified.
    pub fn pending(&mut self) -> Result<Observers<'_>> {
        self.handle.pending().map_err(Exception::of)?;
        let count = self.handle.count().map_err(Exception::of)?;
        Ok(Observers::new(Part::whole(&self.handle), count))
    }

    /// Takes the observers that wait to be notified, in the order of their turns: none of them waits any more. Their records stay, and
    /// [`tell_observer`](Session::tell_observer) notifies each in its turn.
    ///
    /// These are the standard's steps to notify mutation observers, for a program that does something for each observer before the next is notified.
    /// An observer that was disconnected meanwhile, or whose records were taken, gets no records. An observer whose turn is still to come gets the
    /// record of a change meanwhile too. Such a change makes the others wait again.
    ///
    /// ```
    /// use huckleport::{Exception, Node, Options, Result, Session};
    ///
    /// fn main() -> Result<()> {
    ///     let mut session = Session::new()?;
    ///     let observers = [session.create_observer()?, session.create_observer()?];
    ///     for it in observers {
    ///         session.observe(it, Node::DOCUMENT, &Options { child_list: Some(true), ..Options::default() })?;
    ///     }
    ///     let comment = session.create_comment(Node::DOCUMENT, &[])?;
    ///     session.append_child(Node::DOCUMENT, comment)?;
    ///     let mut told = Vec::new();
    ///     for it in session.take_pending()?.collect::<Vec<_>>() {
    ///         let count = match session.tell_observer(it) {
    ///             Err(Exception::NoSuchObject) => 0, // it was released before its turn
    ///             records => records?.len(),
    ///         };
    ///         if count > 0 {
    ///             told.push(it);
    ///             session.disconnect(observers[1])?; // as a callback may do
    ///         }
    ///     }
    ///     assert_eq!(told, observers[..1]);
    ///     Ok(())
    /// }
    /// ```
    pub fn take_pending(&mut self) -> Result<Observers<'_>> {
        self.handle.take_pending().map_err(Exception::of)?;
        let count = self.handle.count().map_err(Exception::of)?;
        Ok(Observers::new(Part::whole(&self.handle), count))
    }

    /// Notifies an observer in its turn: takes its records, and ends its transient registrations.
    ///
    /// One that was released is `NoSuchObject`. See [`take_pending`](Session::take_pending).
    pub fn tell_observer(&mut self, observer: Observer) -> Result<Records<'_>> {
        self.handle.tell_observer(observer.number()).map_err(Exception::of)?;
        let count = self.handle.count().map_err(Exception::of)?;
        Ok(Records::new(Part::whole(&self.handle), count))
    }

    /// Releases an observer: it watches nothing more, and is not notified of the records that waited for it.
    pub fn release_observer(&mut self, observer: Observer) -> Result<()> {
        self.handle.release_observer(observer.number()).map_err(Exception::of)
    }
}
