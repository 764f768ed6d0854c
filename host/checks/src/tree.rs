//! Items of CBOR as trees, whose heads may say what is not so. To damage an input is to change one
//! node; all around it is laid out again as it was.

use crate::inputs;

/// Content and items are those that the node holds, whatever its head says of them.
#[derive(Clone, Debug)]
pub struct Node {
    pub major: u8,
    pub number: u64,
    pub head: Vec<u8>,
    pub content: Vec<u8>,
    /// Of an array its elements; of a map its keys and values in turn.
    pub items: Vec<Node>,
}

impl Node {
    fn new(major: u8, number: u64, content: Vec<u8>, items: Vec<Node>) -> Node {
        Node { major, number, head: inputs::head(major, number), content, items }
    }

    pub fn number(number: u64) -> Node {
        Node::new(0, number, vec![], vec![])
    }

    pub fn negative(number: u64) -> Node {
        Node::new(1, number, vec![], vec![])
    }

    pub fn bytes(content: &[u8]) -> Node {
        Node::new(2, content.len() as u64, content.to_vec(), vec![])
    }

    pub fn text(content: &[u8]) -> Node {
        Node::new(3, content.len() as u64, content.to_vec(), vec![])
    }

    pub fn array(items: Vec<Node>) -> Node {
        Node::new(4, items.len() as u64, vec![], items)
    }

    pub fn map(entries: Vec<(&str, Node)>) -> Node {
        let count = entries.len() as u64;
        let items = entries.into_iter().flat_map(|(key, value)| [Node::text(key.as_bytes()), value]);
        Node::new(5, count, vec![], items.collect())
    }

    /// False, true, null and what else stands in major type 7.
    pub fn simple(number: u64) -> Node {
        Node::new(7, number, vec![], vec![])
    }

    /// Bytes as they stand, good or not.
    pub fn raw(bytes: &[u8]) -> Node {
        let major = bytes.first().map_or(0, |first| first >> 5);
        Node { major, number: 0, head: bytes.to_vec(), content: vec![], items: vec![] }
    }

    /// The same node, its head saying another number.
    pub fn saying(&self, number: u64) -> Node {
        self.under(inputs::head(self.major, number))
    }

    /// The same node under another head.
    pub fn under(&self, head: Vec<u8>) -> Node {
        Node { head, ..self.clone() }
    }

    /// The same string or array or map of other items, counted right.
    pub fn holding(&self, items: Vec<Node>) -> Node {
        let each = if self.major == 5 { 2 } else { 1 };
        Node::new(self.major, items.len() as u64 / each, vec![], items)
    }

    /// How many nodes there are, this one included.
    pub fn size(&self) -> usize {
        1 + self.items.iter().map(Node::size).sum::<usize>()
    }

    /// The node that `index` others stand before, as they lie.
    pub fn node(&mut self, index: usize) -> &mut Node {
        if index == 0 {
            return self;
        }
        let mut left = index - 1;
        for item in &mut self.items {
            let size = item.size();
            if left < size {
                return item.node(left);
            }
            left -= size;
        }
        panic!("no node {index}");
    }

    /// The whole as it lies.
    pub fn laid(&self) -> Vec<u8> {
        self.laid_to(usize::MAX)
    }

    /// All up to the head of the node that `index` others stand before, and that head.
    pub fn laid_to(&self, index: usize) -> Vec<u8> {
        let mut bytes = Vec::with_capacity(512);
        self.lay(&mut { index }, &mut bytes);
        bytes
    }

    /// Whether the last head wanted was met.
    fn lay(&self, left: &mut usize, bytes: &mut Vec<u8>) -> bool {
        bytes.extend(&self.head);
        if *left == 0 {
            return true;
        }
        *left -= 1;
        bytes.extend(&self.content);
        self.items.iter().any(|item| item.lay(left, bytes))
    }
}
