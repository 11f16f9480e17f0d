//! Commands as lines have them, said by the typed methods.
use super::json::Json;
use super::told::*;
use huckleport::{Force, How, Move, Node, NodeIterator, Observer, Options, Range, Result, Session, StaticRange, TreeWalker, Verdict};

/// A command: a session, and the arguments of a line.
pub struct Said<'a> {
    pub session: &'a mut Session,
    pub given: &'a [Json],
}

impl Said<'_> {
    fn number(&self, at: usize) -> u32 {
        self.given[at].number()
    }
    fn node(&self, at: usize) -> Node {
        Node::from_number(self.number(at))
    }
    fn maybe_node(&self, at: usize) -> Option<Node> {
        self.given[at].maybe_number().map(Node::from_number)
    }
    fn range(&self, at: usize) -> Range {
        Range::from_number(self.number(at))
    }
    fn iterator(&self) -> NodeIterator {
        NodeIterator::from_number(self.number(0))
    }
    fn walker(&self) -> TreeWalker {
        TreeWalker::from_number(self.number(0))
    }
    fn observer(&self) -> Observer {
        Observer::from_number(self.number(0))
    }
    fn name(&self, at: usize) -> String {
        self.given[at].string()
    }
    fn units(&self, at: usize) -> Vec<u16> {
        self.given[at].units()
    }

    /// The reply to a command; none where no group has it.
    pub fn answer(&mut self, name: &str) -> Option<Result<Json>> {
        let groups = [Self::making, Self::trees, Self::questions, Self::data, Self::attributes, Self::ends, Self::compared, Self::contents];
        let found = groups.iter().find_map(|group| group(self, name).transpose());
        found.or_else(|| self.traversal(name).transpose()).or_else(|| self.observers(name).transpose())
    }

    fn making(&mut self, name: &str) -> Result<Option<Json>> {
        let made = match name {
            "newDocument" => self.session.new_document()?,
            "createElement" => self.session.create_element(self.node(0), &self.name(1))?,
            "createText" => self.session.create_text(self.node(0), &self.units(1))?,
            "createComment" => self.session.create_comment(self.node(0), &self.units(1))?,
            "createPI" => self.session.create_pi(self.node(0), &self.name(1), &self.units(2))?,
            "createDoctype" => self.session.create_doctype(self.node(0), &self.name(1), &self.name(2), &self.name(3))?,
            "createFragment" => self.session.create_fragment(self.node(0))?,
            _ => return Ok(None),
        };
        Ok(Some(number(made.number())))
    }

    fn trees(&mut self, name: &str) -> Result<Option<Json>> {
        let answered = match name {
            "insertBefore" => self.session.insert_before(self.node(0), self.node(1), self.maybe_node(2))?,
            "appendChild" => self.session.append_child(self.node(0), self.node(1))?,
            "adoptNode" => self.session.adopt_node(self.node(0), self.node(1))?,
            "replaceChild" => self.session.replace_child(self.node(0), self.node(1), self.node(2))?,
            "removeChild" => self.session.remove_child(self.node(0), self.node(1))?,
            "importNode" => self.session.import_node(self.node(0), self.node(1), self.given[2].bool())?,
            "cloneNode" => self.session.clone_node(self.node(0), self.given[1].bool())?,
            _ => return self.changes(name),
        };
        Ok(Some(number(answered.number())))
    }

    fn changes(&mut self, name: &str) -> Result<Option<Json>> {
        match name {
            "remove" => self.session.remove(self.node(0))?,
            "replaceChildren" => self.session.replace_children(self.node(0), self.maybe_node(1))?,
            "normalize" => self.session.normalize(self.node(0))?,
            "discard" => self.session.discard(self.node(0))?,
            "setTextContent" => self.session.set_text_content(self.node(0), &self.units(1))?,
            _ => return Ok(None),
        }
        Ok(Some(Json::Null))
    }

    fn questions(&mut self, name: &str) -> Result<Option<Json>> {
        Ok(Some(match name {
            "node" => description(self.session.node(self.node(0))?),
            "children" => nodes(self.session.children(self.node(0))?),
            "index" => count(self.session.index(self.node(0))?),
            "length" => count(self.session.length(self.node(0))?),
            "root" => number(self.session.root(self.node(0))?.number()),
            "contains" => Json::Bool(self.session.contains(self.node(0), self.maybe_node(1))?),
            "isEqual" => Json::Bool(self.session.is_equal(self.node(0), self.maybe_node(1))?),
            "comparePosition" => number(self.session.compare_position(self.node(0), self.node(1))?),
            "textContent" => maybe_units(self.session.text_content(self.node(0))?),
            "tree" => Json::List(self.session.tree(self.node(0))?.map(row).collect()),
            _ => return Ok(None),
        }))
    }

    fn data(&mut self, name: &str) -> Result<Option<Json>> {
        match name {
            "data" => return Ok(Some(Json::of_units(self.session.data(self.node(0))?))),
            "substringData" => return Ok(Some(Json::of_units(self.session.substring_data(self.node(0), self.number(1), self.number(2))?))),
            "splitText" => return Ok(Some(number(self.session.split_text(self.node(0), self.number(1))?.number()))),
            "setData" => self.session.set_data(self.node(0), &self.units(1))?,
            "appendData" => self.session.append_data(self.node(0), &self.units(1))?,
            "insertData" => self.session.insert_data(self.node(0), self.number(1), &self.units(2))?,
            "deleteData" => self.session.delete_data(self.node(0), self.number(1), self.number(2))?,
            "replaceData" => self.session.replace_data(self.node(0), self.number(1), self.number(2), &self.units(3))?,
            _ => return Ok(None),
        }
        Ok(Some(Json::Null))
    }

    fn attributes(&mut self, name: &str) -> Result<Option<Json>> {
        match name {
            "setAttribute" => self.session.set_attribute(self.node(0), &self.name(1), &self.units(2))?,
            "removeAttribute" => self.session.remove_attribute(self.node(0), &self.name(1))?,
            "getAttribute" => return Ok(Some(maybe_units(self.session.get_attribute(self.node(0), &self.name(1))?))),
            "hasAttribute" => return Ok(Some(Json::Bool(self.session.has_attribute(self.node(0), &self.name(1))?))),
            "toggleAttribute" => return self.toggled(),
            "attributeNames" => return Ok(Some(Json::List(self.session.attribute_names(self.node(0))?.map(Json::text).collect()))),
            _ => return Ok(None),
        }
        Ok(Some(Json::Null))
    }

    fn toggled(&mut self) -> Result<Option<Json>> {
        let force = match self.given[2] {
            Json::Bool(true) => Force::Add,
            Json::Bool(false) => Force::Remove,
            _ => Force::Toggle,
        };
        Ok(Some(Json::Bool(self.session.toggle_attribute(self.node(0), &self.name(1), force)?)))
    }

    fn ends(&mut self, name: &str) -> Result<Option<Json>> {
        match name {
            "setStart" => self.session.set_start(self.range(0), self.node(1), self.number(2))?,
            "setEnd" => self.session.set_end(self.range(0), self.node(1), self.number(2))?,
            "setStartBefore" => self.session.set_start_before(self.range(0), self.node(1))?,
            "setStartAfter" => self.session.set_start_after(self.range(0), self.node(1))?,
            "setEndBefore" => self.session.set_end_before(self.range(0), self.node(1))?,
            "setEndAfter" => self.session.set_end_after(self.range(0), self.node(1))?,
            "collapse" => self.session.collapse(self.range(0), self.given[1].bool())?,
            "selectNode" => self.session.select_node(self.range(0), self.node(1))?,
            "selectNodeContents" => self.session.select_node_contents(self.range(0), self.node(1))?,
            "releaseRange" => self.session.release_range(self.range(0))?,
            _ => return Ok(None),
        }
        Ok(Some(Json::Null))
    }

    fn compared(&mut self, name: &str) -> Result<Option<Json>> {
        Ok(Some(match name {
            "createRange" => number(self.session.create_range(self.node(0))?.number()),
            "cloneRange" => number(self.session.clone_range(self.range(0))?.number()),
            "range" => ends(self.session.range(self.range(0))?),
            "compareBoundaryPoints" => order(self.session.compare_boundary_points(self.range(0), How(self.number(1)), self.range(2))?),
            "comparePoint" => order(self.session.compare_point(self.range(0), self.node(1), self.number(2))?),
            "isPointInRange" => Json::Bool(self.session.is_point_in_range(self.range(0), self.node(1), self.number(2))?),
            "intersectsNode" => Json::Bool(self.session.intersects_node(self.range(0), self.node(1))?),
            "commonAncestor" => number(self.session.common_ancestor(self.range(0))?.number()),
            "createStaticRange" => number(self.session.create_static_range(self.node(0), self.number(1), self.node(2), self.number(3))?.number()),
            "staticRange" => static_ends(self.session.static_range(StaticRange::from_number(self.number(0)))?),
            _ => return Ok(None),
        }))
    }

    fn contents(&mut self, name: &str) -> Result<Option<Json>> {
        match name {
            "rangeText" => return Ok(Some(Json::of_units(self.session.range_text(self.range(0))?))),
            "extractContents" => return Ok(Some(number(self.session.extract_contents(self.range(0))?.number()))),
            "cloneContents" => return Ok(Some(number(self.session.clone_contents(self.range(0))?.number()))),
            "deleteContents" => self.session.delete_contents(self.range(0))?,
            "insertNode" => self.session.insert_node(self.range(0), self.node(1))?,
            "surroundContents" => self.session.surround_contents(self.range(0), self.node(1))?,
            _ => return Ok(None),
        }
        Ok(Some(Json::Null))
    }

    fn traversal(&mut self, name: &str) -> Result<Option<Json>> {
        Ok(Some(match name {
            "createIterator" | "createWalker" => return self.created(name),
            "iterator" => {
                let it = self.session.iterator(self.iterator())?;
                Json::List(vec![number(it.root.number()), number(it.reference.number()), Json::Bool(it.is_before)])
            }
            "nextNode" => maybe(self.session.next_node(self.iterator())?),
            "previousNode" => maybe(self.session.previous_node(self.iterator())?),
            "walker" => {
                let it = self.session.walker(self.walker())?;
                Json::List(vec![number(it.root.number()), number(it.current.number())])
            }
            "setCurrent" => {
                self.session.set_current(self.walker(), self.node(1))?;
                Json::Null
            }
            "walk" => maybe(self.session.walk(self.walker(), direction(&self.name(1)))?),
            _ => return Ok(None),
        }))
    }

    fn created(&mut self, name: &str) -> Result<Option<Json>> {
        let given: Vec<(String, Verdict)> = self.given[2].list().iter().map(rule).collect();
        let rules: Vec<(&str, Verdict)> = given.iter().map(|(name, verdict)| (name.as_str(), *verdict)).collect();
        let (root, show) = (self.node(0), self.number(1));
        Ok(Some(number(match name {
            "createIterator" => self.session.create_iterator(root, show, &rules)?.number(),
            _ => self.session.create_walker(root, show, &rules)?.number(),
        })))
    }

    fn observers(&mut self, name: &str) -> Result<Option<Json>> {
        Ok(Some(match name {
            "createObserver" => number(self.session.create_observer()?.number()),
            "observe" => return self.observe(),
            "disconnect" => {
                self.session.disconnect(self.observer())?;
                Json::Null
            }
            "takeRecords" => records(self.session.take_records(self.observer())?),
            "notify" => notices(self.session.notify()?),
            "pending" => Json::List(self.session.pending()?.map(|it| number(it.number())).collect()),
            _ => return Ok(None),
        }))
    }

    fn observe(&mut self) -> Result<Option<Json>> {
        let given = &self.given[2];
        let flag = |name| given.member(name).map(Json::bool);
        let names: Option<Vec<String>> = given.member("attributeFilter").map(|it| it.list().iter().map(Json::string).collect());
        let lent: Option<Vec<&str>> = names.as_ref().map(|it| it.iter().map(String::as_str).collect());
        let options = Options {
            child_list: flag("childList"),
            attributes: flag("attributes"),
            character_data: flag("characterData"),
            subtree: flag("subtree"),
            attribute_old_value: flag("attributeOldValue"),
            character_data_old_value: flag("characterDataOldValue"),
            attribute_filter: lent.as_deref(),
        };
        self.session.observe(self.observer(), self.node(1), &options)?;
        Ok(Some(Json::Null))
    }
}

fn rule(it: &Json) -> (String, Verdict) {
    let verdict = match it.list()[1].string().as_str() {
        "accept" => Verdict::Accept,
        "reject" => Verdict::Reject,
        _ => Verdict::Skip,
    };
    (it.list()[0].string(), verdict)
}

fn direction(name: &str) -> Move {
    match name {
        "parentNode" => Move::ParentNode,
        "firstChild" => Move::FirstChild,
        "lastChild" => Move::LastChild,
        "previousSibling" => Move::PreviousSibling,
        "nextSibling" => Move::NextSibling,
        "previousNode" => Move::PreviousNode,
        _ => Move::NextNode,
    }
}
