//! Walks over a tree, and a tree by itself.
#![forbid(unsafe_code)]
use crate::tables::NONE;
use crate::{Error, Node, Record, Tables, Tree};
use std::borrow::Cow;
use std::iter::FusedIterator;

/// A step of a walk: a node is entered before its children, and left behind them. Its depth is [`Node::depth`].
#[derive(Debug, Clone, Copy)]
pub enum Step<'r> {
    /// The node, before its children.
    Enter(Node<'r>),
    /// The node, behind its children.
    Leave(Node<'r>),
}

impl<'r> Step<'r> {
    /// The node that is entered or left.
    pub fn node(self) -> Node<'r> {
        match self {
            Step::Enter(node) | Step::Leave(node) => node,
        }
    }
}

/// A walk from a node through all below it, without recursion and without memory of its own: two steps a node.
#[derive(Debug, Clone)]
pub struct Walk<'r> {
    from: Node<'r>,
    next: Option<Step<'r>>,
    /// How many steps are left at most; exactly so many where it began at a root.
    most: usize,
}

impl<'r> Iterator for Walk<'r> {
    type Item = Step<'r>;

    fn next(&mut self) -> Option<Step<'r>> {
        let step = self.next?;
        self.most -= 1;
        self.next = match step {
            Step::Enter(node) => Some(node.first_child().map_or(Step::Leave(node), Step::Enter)),
            Step::Leave(node) if node == self.from => None,
            Step::Leave(node) => node.next_sibling().map(Step::Enter).or_else(|| node.parent().map(Step::Leave)),
        };
        Some(step)
    }

    fn size_hint(&self) -> (usize, Option<usize>) {
        match self.next {
            None => (0, Some(0)),
            Some(_) if self.from.parent().is_none() => (self.most, Some(self.most)),
            Some(_) => (1, Some(self.most)),
        }
    }
}

impl FusedIterator for Walk<'_> {}

impl<'r> Node<'r> {
    /// The node and all below it, each entered before its children and left behind them, however deep they are.
    ///
    /// ```
    /// use ekimorepa::Step;
    ///
    /// let record = ekimorepa::parse("(;B[aa](;W[bb];B[cc])(;W[dd]))")?;
    /// let mut drawn = String::new();
    /// for step in record.trees().next().unwrap().root().walk() {
    ///     if let Step::Enter(node) = step {
    ///         drawn += &format!("{}{}\n", " ".repeat(node.depth()), node.get_move().unwrap().1);
    ///     }
    /// }
    /// assert_eq!(drawn, "aa\n bb\n  cc\n dd\n");
    /// # Ok::<(), ekimorepa::Error>(())
    /// ```
    pub fn walk(self) -> Walk<'r> {
        Walk { from: self, next: Some(Step::Enter(self)), most: 2 * self.at_most() }
    }
}

impl<'r> Tree<'r> {
    /// All nodes of the tree, each entered before its children and left behind them: see [`Node::walk`].
    pub fn walk(self) -> Walk<'r> {
        self.root().walk()
    }

    /// The tree by itself, as a record over the same text: its numbers begin at 0, and its spans are as they were.
    ///
    /// ```
    /// let record = ekimorepa::parse("(;AB[bb:cc])(;GM[2];C[x](;)(;N[y]))")?;
    /// let second = record.trees().nth(1).unwrap().to_record();
    /// assert_eq!((second.trees().count(), second.to_sgf()?.as_str()), (1, "(;GM[2];C[x](;)(;N[y]))"));
    /// # Ok::<(), ekimorepa::Error>(())
    /// ```
    pub fn to_record(self) -> Record<'r> {
        let Tables { trees, nodes, properties, values } = &self.record.tables;
        let node = |tree: usize| trees.get(tree).map_or(nodes.len(), |row| row[0] as usize);
        let property = |node: usize| nodes.get(node).map_or(properties.len(), |row| row[3] as usize);
        let value = |property: usize| properties.get(property).map_or(values.len(), |row| row[2] as usize);
        let (n, m) = (node(self.number), node(self.number + 1));
        let (p, q) = (property(n), property(m));
        let (v, w) = (value(p), value(q));
        let link = |to: u32| if to == NONE { NONE } else { to - n as u32 };
        let own = |[up, down, beside, first, count, depth]: [u32; 6]| [link(up), link(down), link(beside), first - p as u32, count, depth];
        let tables = Tables {
            trees: vec![[0, trees[self.number][1]]],
            nodes: nodes[n..m].iter().map(|row| own(*row)).collect(),
            properties: properties[p..q].iter().map(|[from, to, first, count]| [*from, *to, first - v as u32, *count]).collect(),
            values: values[v..w].to_vec(),
        };
        Record { text: Cow::Borrowed(&self.record.text), tables, ignored: self.record.ignored }
    }

    /// The tree by itself as text, in the form of [`Record::to_sgf`].
    ///
    /// ```
    /// let record = ekimorepa::parse("(;AB[bb:cc])(;GM[2];C[x])")?;
    /// let written: Vec<String> = record.trees().map(|tree| tree.to_sgf()).collect::<Result<_, _>>()?;
    /// assert_eq!(written, ["(;AB[bb][bc][cb][cc])", "(;GM[2];C[x])"]);
    /// assert_eq!(written.concat(), record.to_sgf()?);
    /// # Ok::<(), ekimorepa::Error>(())
    /// ```
    pub fn to_sgf(self) -> Result<String, Error> {
        self.to_record().to_sgf()
    }
}
