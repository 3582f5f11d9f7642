//! Ours: what the private parts of a sparse field hold and answer.

use super::{BlockSize, InternalNode, LeafNode, NodeHandle, SparseField, SparseFieldConfig};
use crate::parts::Graph;
use crate::types::computation::data::field_iterator::PointIterator;
use crate::types::computation::data::DenseField;
use crate::types::computation::model::{ComputationGraph, Data, ModelComponent, Parameter};
use crate::types::computation::traits::{ImplicitComponent, ImplicitFunction};
use crate::types::geometry::{BoundingBox, Vec3, Vec3i};

type Box3 = BoundingBox<f64>;

const BLOCKS: [BlockSize; 6] = [
    BlockSize::Size2,
    BlockSize::Size4,
    BlockSize::Size8,
    BlockSize::Size16,
    BlockSize::Size32,
    BlockSize::Size64,
];

/// The block of this size, if there is one.
pub fn block(n: u64) -> Option<BlockSize> {
    BLOCKS.into_iter().find(|b| b.value() as u64 == n)
}

/// What became of a child.
pub enum Child {
    Empty,
    Constant(f64),
    Leaf(Vec<f64>),
}

/// The nodes of a field with its bounds set.
pub struct Nodes {
    field: SparseField<f64>,
}

impl Nodes {
    pub fn new(bounds: Box3, cell: f64, inner: BlockSize, leaf: BlockSize) -> Nodes {
        let mut field = SparseField::new(SparseFieldConfig {
            internal_size: inner,
            leaf_size: leaf,
            cell_size: cell,
        });
        field.init_bounds(&bounds);
        Nodes { field }
    }

    /// The nodes along each axis.
    pub fn counts(&self) -> [usize; 3] {
        let mut counts = [0; 3];
        for &(i, j, k) in self.field.root.table.keys() {
            counts = [
                counts[0].max(i + 1),
                counts[1].max(j + 1),
                counts[2].max(k + 1),
            ];
        }
        assert_eq!(self.field.root.table.len(), counts.iter().product());
        counts
    }

    /// Node v, i fastest.
    fn node(&self, v: usize) -> &InternalNode<f64> {
        let [nx, ny, _] = self.counts();
        match &self.field.root.table[&(v % nx, v / nx % ny, v / nx / ny)] {
            NodeHandle::Internal(node) => node,
            _ => unreachable!("a root has internal nodes alone"),
        }
    }

    pub fn node_box(&self, v: usize) -> Box3 {
        self.node(v).bounds
    }

    pub fn child_box(&self, v: usize, c: usize) -> Box3 {
        self.node(v).cell_bounds(c)
    }

    /// For each child of a node, whether it is active.
    pub fn active_in(&self, v: usize) -> Vec<bool> {
        let empty = |child: &NodeHandle<f64>| matches!(child, NodeHandle::Empty);
        self.node(v).children.iter().map(|c| !empty(c)).collect()
    }

    /// The active children of all nodes.
    pub fn active(&self) -> usize {
        self.field.n_active_nodes()
    }

    /// Samples all nodes.
    pub fn sample(&mut self, graph: &Graph, min_val: f64, max_val: f64) {
        let done = self.field.sample_from_graph(&graph.graph, min_val, max_val);
        done.expect("the bounds are set");
    }

    /// The children of a node.
    pub fn children(&self, v: usize) -> Vec<Child> {
        let child = |handle: &NodeHandle<f64>| match handle {
            NodeHandle::Leaf(leaf) => Child::Leaf(leaf.values.clone()),
            NodeHandle::Constant(_, value) => Child::Constant(*value),
            NodeHandle::Empty => Child::Empty,
            NodeHandle::Internal(_) => unreachable!("a node has no nodes below it"),
        };
        self.node(v).children.iter().map(child).collect()
    }
}

/// A node with these active children.
fn node_with(bounds: Box3, inner: BlockSize, active: &[bool]) -> InternalNode<f64> {
    let mut node = InternalNode::new(bounds, inner);
    for (child, &is) in node.children.iter_mut().zip(active) {
        if is {
            *child = NodeHandle::Constant(bounds, 0.0);
        }
    }
    node
}

/// The corners that the active children of a node need, ascending.
pub fn needed_corners(inner: BlockSize, active: &[bool]) -> Vec<usize> {
    let n = inner.value() + 1;
    let node = node_with(Box3::zero(), inner, active);
    let field = DenseField::new(Vec3::origin(), 1.0, Vec3i::new(n, n, n));
    let mut corners: Vec<usize> = node.get_corners_from_active(&field).into_iter().collect();
    corners.sort_unstable();
    corners
}

/// The places of a child's corners among its node's.
pub fn octet(inner: BlockSize, c: usize) -> [usize; 8] {
    let n = inner.value() + 1;
    let field = DenseField::<f64>::new(Vec3::origin(), 1.0, Vec3i::new(n, n, n));
    let (i, j, k) = field.cell_index3d(c);
    field.cell_ids(i, j, k)
}

/// One coordinate of a point, as a model.
struct Coordinate(usize);

impl ImplicitFunction<f64> for Coordinate {
    fn eval(&self, x: f64, y: f64, z: f64) -> f64 {
        [x, y, z][self.0]
    }
}

impl ImplicitComponent<f64> for Coordinate {
    fn parameters(&self) -> &[Parameter] {
        &[]
    }
    fn read_parameter(&self, _: &str) -> Option<Data<f64>> {
        None
    }
    fn set_parameter(&mut self, _: &str, _: Data<f64>) {}
    fn name(&self) -> &'static str {
        "Coordinate"
    }
}

/// The points of a node's corners, as the original samples them.
pub fn corner_points(bounds: Box3, inner: BlockSize) -> Vec<[f64; 3]> {
    let node = node_with(bounds, inner, &vec![true; inner.total_size()]);
    let axis = |axis: usize| {
        let component = ModelComponent::Function(Box::new(Coordinate(axis)));
        let mut graph = ComputationGraph::new();
        graph.add_component(&component, vec![]);
        node.sample_corner_values(&graph).copy_data()
    };
    let (xs, ys, zs) = (axis(0), axis(1), axis(2));
    (0..xs.len()).map(|p| [xs[p], ys[p], zs[p]]).collect()
}

/// The points of a leaf.
pub fn leaf_points(bounds: Box3, leaf: BlockSize) -> Vec<[f64; 3]> {
    let leaf = LeafNode::<f64>::new(bounds, leaf);
    leaf.iter_points().map(|p| [p.x, p.y, p.z]).collect()
}

/// Whether a child with this box and octet becomes a leaf.
pub fn is_overlapping(bounds: Box3, octet: [f64; 8], min_val: f64, max_val: f64) -> bool {
    InternalNode::is_overlapping(&bounds, &octet, min_val, max_val)
}

/// The number of a pruned child.
pub fn average(octet: [f64; 8]) -> f64 {
    InternalNode::average_corners(&octet)
}
