//! Trees and nodes.
#![forbid(unsafe_code)]
use crate::tables::NONE;
use crate::counted::AtMost;
use crate::size::Ruled;
use crate::{Color, GoValue, Move, Property, Record};
use std::iter::FusedIterator;

/// The game of a tree.
#[derive(Debug, Clone, Copy, PartialEq, Eq, Hash)]
pub enum GameType {
    /// GM is 1 or missing.
    Go,
    /// Any other.
    Unknown,
}

/// A game tree of a record.
#[derive(Debug, Clone, Copy)]
pub struct Tree<'r> {
    pub(crate) record: &'r Record<'r>,
    pub(crate) number: usize,
    pub(crate) ruled: Ruled,
}

impl<'r> Tree<'r> {
    /// Its number in the record.
    pub fn number(self) -> usize {
        self.number
    }

    /// Its game.
    pub fn game_type(self) -> GameType {
        match self.row()[1] {
            0 => GameType::Go,
            _ => GameType::Unknown,
        }
    }

    /// Its first node.
    pub fn root(self) -> Node<'r> {
        self.node(self.row()[0])
    }

    /// Its nodes, in the order of the text: each before its children.
    pub fn nodes(self) -> impl DoubleEndedIterator<Item = Node<'r>> + ExactSizeIterator + FusedIterator {
        (self.row()[0] as usize..self.end()).map(move |number| self.node(number as u32))
    }

    /// The number behind that of its last node.
    fn end(self) -> usize {
        let tables = &self.record.tables;
        tables.trees.get(self.number + 1).map_or(tables.nodes.len(), |next| next[0] as usize)
    }

    fn row(self) -> [u32; 2] {
        self.record.tables.trees[self.number]
    }

    fn node(self, number: u32) -> Node<'r> {
        Node { tree: self, number: number as usize }
    }
}

/// A node of a tree. Nodes are equal where they are one node of one record in memory.
#[derive(Debug, Clone, Copy)]
pub struct Node<'r> {
    tree: Tree<'r>,
    number: usize,
}

impl PartialEq for Node<'_> {
    fn eq(&self, other: &Self) -> bool {
        std::ptr::eq(self.record(), other.record()) && self.number == other.number
    }
}

impl Eq for Node<'_> {}

/// The ancestors of a node, the nearest first: as many as its depth.
#[derive(Debug, Clone)]
struct Ancestors<'r>(Node<'r>);

impl<'r> Iterator for Ancestors<'r> {
    type Item = Node<'r>;

    fn next(&mut self) -> Option<Node<'r>> {
        self.0 = self.0.parent()?;
        Some(self.0)
    }

    fn size_hint(&self) -> (usize, Option<usize>) {
        (self.0.depth(), Some(self.0.depth()))
    }
}

impl ExactSizeIterator for Ancestors<'_> {}
impl FusedIterator for Ancestors<'_> {}

impl<'r> Node<'r> {
    /// Its number in the record.
    pub fn number(self) -> usize {
        self.number
    }

    /// Its tree.
    pub fn tree(self) -> Tree<'r> {
        self.tree
    }

    /// Its parent; none of a root.
    pub fn parent(self) -> Option<Node<'r>> {
        self.linked(self.row()[0])
    }

    /// Its distance from the root, 0 at a root.
    ///
    /// ```
    /// let record = ekimorepa::parse("(;B[aa](;W[bb];B[cc])(;W[dd]))")?;
    /// let depths: Vec<usize> = record.trees().next().unwrap().nodes().map(|node| node.depth()).collect();
    /// assert_eq!(depths, [0, 1, 2, 1]);
    /// # Ok::<(), ekimorepa::Error>(())
    /// ```
    pub fn depth(self) -> usize {
        self.row()[5] as usize
    }

    /// Its parent, that one's parent, and so on up to the root: as many as its depth.
    pub fn ancestors(self) -> impl ExactSizeIterator<Item = Node<'r>> + FusedIterator {
        Ancestors(self)
    }

    /// Its first child, if it has one.
    pub fn first_child(self) -> Option<Node<'r>> {
        self.linked(self.row()[1])
    }

    /// The next child of its parent, if there is one.
    pub fn next_sibling(self) -> Option<Node<'r>> {
        self.linked(self.row()[2])
    }

    /// The nearest ancestor with two or more children: where "back to the fork" leads. None where no ancestor has them;
    /// the node itself is not looked at.
    ///
    /// ```
    /// let record = ekimorepa::parse("(;B[aa](;W[bb];B[cc])(;W[dd]))")?;
    /// let nodes: Vec<_> = record.trees().next().unwrap().nodes().collect();
    /// let fork = nodes[2].fork().unwrap();
    /// assert_eq!((fork.number(), nodes[2].depth() - fork.depth()), (0, 2));
    /// assert!(fork.fork().is_none());
    /// # Ok::<(), ekimorepa::Error>(())
    /// ```
    pub fn fork(self) -> Option<Node<'r>> {
        self.ancestors().find(|node| node.children().nth(1).is_some())
    }

    /// Its children, in the order of the text.
    ///
    /// ```
    /// let record = ekimorepa::parse("(;B[aa](;W[bb])(;W[cc]))")?;
    /// let root = record.trees().next().unwrap().root();
    /// let answers: Vec<&str> = root.children().map(|child| child.get_property("W").unwrap().value().as_str()).collect();
    /// assert_eq!(answers, ["bb", "cc"]);
    /// # Ok::<(), ekimorepa::Error>(())
    /// ```
    pub fn children(self) -> impl FusedIterator<Item = Node<'r>> {
        AtMost { iter: std::iter::successors(self.first_child(), |child| child.next_sibling()), most: self.at_most() - 1 }
    }

    /// The node, its first child, that one's first child, and so on.
    pub fn main_variation(self) -> impl FusedIterator<Item = Node<'r>> {
        AtMost { iter: std::iter::successors(Some(self), |node| node.first_child()), most: self.at_most() }
    }

    /// How many nodes it and those below it are at most: those of its tree from it on.
    pub(crate) fn at_most(self) -> usize {
        self.tree.end() - self.number
    }

    /// Its properties, in the order of the text.
    pub fn properties(self) -> impl DoubleEndedIterator<Item = Property<'r>> + ExactSizeIterator + FusedIterator {
        let [first, count] = [self.row()[3] as usize, self.row()[4] as usize];
        (first..first + count).map(move |number| Property { node: self, number })
    }

    /// Its first property with this identifier.
    pub fn get_property(self, identifier: &str) -> Option<Property<'r>> {
        self.properties().find(|property| property.is_named(identifier))
    }

    /// Its first valid move of a Go game, and whose it is.
    ///
    /// ```
    /// use ekimorepa::{Color, Move};
    ///
    /// let record = ekimorepa::parse("(;C[no more]W[])")?;
    /// assert_eq!(record.trees().next().unwrap().root().get_move(), Some((Color::White, Move::Pass)));
    /// # Ok::<(), ekimorepa::Error>(())
    /// ```
    pub fn get_move(self) -> Option<(Color, Move)> {
        self.properties().find_map(|property| {
            let colour = match &*property.identifier() {
                "B" => Color::Black,
                "W" => Color::White,
                _ => return None,
            };
            match property.go_value() {
                GoValue::Move(played) => Some((colour, played)),
                _ => None,
            }
        })
    }

    pub(crate) fn record(self) -> &'r Record<'r> {
        self.tree.record
    }

    pub(crate) fn row(self) -> [u32; 6] {
        self.record().tables.nodes[self.number]
    }

    fn linked(self, number: u32) -> Option<Node<'r>> {
        (number != NONE).then(|| self.tree.node(number))
    }
}
