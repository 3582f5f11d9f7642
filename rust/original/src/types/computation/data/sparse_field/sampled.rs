//! Ours: what the children of a sparse field hold.

use super::{NodeHandle, SparseField};

/// A child of a node.
pub enum Child<'a> {
    Empty,
    Constant(f64),
    Leaf(&'a [f64]),
}

fn child(handle: &NodeHandle<f64>) -> Child<'_> {
    match handle {
        NodeHandle::Empty => Child::Empty,
        NodeHandle::Constant(_, value) => Child::Constant(*value),
        NodeHandle::Leaf(leaf) => Child::Leaf(&leaf.values),
        NodeHandle::Internal(_) => unreachable!("a child is no internal node"),
    }
}

/// The children of all nodes, node after node, i fastest, then j, k.
pub fn children(field: &SparseField<f64>) -> Vec<Child<'_>> {
    let mut nodes: Vec<_> = field.root.table.iter().collect();
    nodes.sort_by_key(|&(&(i, j, k), _)| (k, j, i));
    let of_node = |(_, node)| match node {
        &NodeHandle::Internal(ref node) => node.children.iter().map(child),
        _ => unreachable!("a root has internal nodes alone"),
    };
    nodes.into_iter().flat_map(of_node).collect()
}
