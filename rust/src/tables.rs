//! The four tables that a reading fills.
#![forbid(unsafe_code)]
use crate::ffi::{Counts, Edited, Held};

/// No node.
pub(crate) const NONE: u32 = u32::MAX;

/// The four tables of a record, row by row in the order of the text. Spans count bytes, end excluded; "none" is `u32::MAX`.
#[derive(Debug, Clone, Default, PartialEq, Eq)]
pub struct Tables {
    /// Root node, game type (0 Go, 1 unknown).
    pub trees: Vec<[u32; 2]>,
    /// Parent, first child, next sibling, first property, property count, depth.
    pub nodes: Vec<[u32; 6]>,
    /// Identifier start and end, first value, value count.
    pub properties: Vec<[u32; 4]>,
    /// Start and end of what stands between the brackets.
    pub values: Vec<[u32; 2]>,
}

impl Tables {
    /// Rows that suffice for a reading of the text: each tree but an open one has its `)`, each node its `;` or is a made root,
    /// each property and value its `[`.
    pub(crate) fn sufficient(text: &[u8]) -> Self {
        let count = |byte: u8| text.iter().filter(|b| **b == byte).count();
        let trees = count(b')') + 1;
        let values = count(b'[');
        Tables {
            trees: vec![[0; 2]; trees],
            nodes: vec![[0; 6]; count(b';') + trees],
            properties: vec![[0; 4]; values],
            values: vec![[0; 2]; values],
        }
    }

    /// Keeps the used rows only.
    pub(crate) fn keep(&mut self, counts: Counts) {
        self.trees.truncate(counts.trees);
        self.nodes.truncate(counts.nodes);
        self.properties.truncate(counts.properties);
        self.values.truncate(counts.values);
        self.trees.shrink_to_fit();
        self.nodes.shrink_to_fit();
        self.properties.shrink_to_fit();
        self.values.shrink_to_fit();
    }

    fn counts(&self) -> Counts {
        Counts { trees: self.trees.len(), nodes: self.nodes.len(), properties: self.properties.len(), values: self.values.len() }
    }

    /// All of them, to be filled.
    pub(crate) fn lent(&mut self) -> [&mut [u32]; 4] {
        let Tables { trees, nodes, properties, values } = self;
        [trees.as_flattened_mut(), nodes.as_flattened_mut(), properties.as_flattened_mut(), values.as_flattened_mut()]
    }

    /// With their text, of which all is used.
    pub(crate) fn held<'a>(&'a self, text: &'a [u8]) -> Held<'a> {
        let Tables { trees, nodes, properties, values } = self;
        let tables = [trees.as_flattened(), nodes.as_flattened(), properties.as_flattened(), values.as_flattened()];
        Held { text, used: text.len(), counts: self.counts(), tables }
    }

    /// With their text, to be edited.
    pub(crate) fn edited<'a>(&'a mut self, text: &'a mut [u8], used: usize) -> Edited<'a> {
        let counts = self.counts();
        let Tables { trees, nodes, properties, values } = self;
        let (properties, values) = (properties.as_flattened_mut(), values.as_flattened_mut());
        Edited { text, used, counts, trees: trees.as_flattened(), nodes: nodes.as_flattened(), properties, values }
    }
}
