//! The commands on attributes.
use crate::answers::{Names, Part};
use crate::exception::{Exception, Result};
use crate::numbers::Node;
use crate::session::Session;

/// The effect of toggling an attribute.
#[derive(Clone, Copy, Debug, PartialEq, Eq, Hash)]
pub enum Force {
    /// Remove it.
    Remove,
    /// Add it.
    Add,
    /// Remove it if it is there, and add it if it is not.
    Toggle,
}

/// Attributes.
impl Session {
    /// Sets an attribute.
    pub fn set_attribute(&mut self, element: Node, name: &str, value: &[u16]) -> Result<()> {
        self.handle.set_attribute(element.number(), name.as_bytes(), value).map_err(Exception::of)
    }

    /// The value of an attribute; none where there is no such attribute.
    pub fn get_attribute(&mut self, element: Node, name: &str) -> Result<Option<&[u16]>> {
        match self.handle.get_attribute(element.number(), name.as_bytes()).map_err(Exception::of) {
            Ok(()) => self.text(),
            Err(Exception::OutOfMemory) => self.held_attribute(element, name),
            Err(refusal) => Err(refusal),
        }
    }

    /// The same by calls that take no memory.
    fn held_attribute(&self, element: Node, name: &str) -> Result<Option<&[u16]>> {
        let handle = &self.handle;
        handle.links(element.number()).map_err(Exception::of)?;
        let mut all = (0..).map_while(|at| handle.attribute_at(element.number(), at).ok());
        Ok(all.find(|it| it.0 == name.as_bytes()).map(|it| it.1))
    }

    /// Whether there is an attribute of that name.
    pub fn has_attribute(&mut self, element: Node, name: &str) -> Result<bool> {
        self.handle.has_attribute(element.number(), name.as_bytes()).map(|it| it != 0).map_err(Exception::of)
    }

    /// Removes an attribute.
    pub fn remove_attribute(&mut self, element: Node, name: &str) -> Result<()> {
        self.handle.remove_attribute(element.number(), name.as_bytes()).map_err(Exception::of)
    }

    /// Adds or removes an attribute. Returns whether it is there from then on.
    pub fn toggle_attribute(&mut self, element: Node, name: &str, force: Force) -> Result<bool> {
        let force = match force {
            Force::Remove => 0,
            Force::Add => 1,
            Force::Toggle => 2,
        };
        self.handle.toggle_attribute(element.number(), name.as_bytes(), force).map(|it| it != 0).map_err(Exception::of)
    }

    /// The names of the attributes, in order.
    pub fn attribute_names(&mut self, element: Node) -> Result<Names<'_>> {
        self.handle.attribute_names(element.number()).map_err(Exception::of)?;
        let count = self.handle.count().map_err(Exception::of)?;
        Ok(Names::new(Part::whole(&self.handle), count))
    }
}
