//! The parts of a model, as components of the original.
//!
//! The original has traits for the shapes and operations and no bodies of them
//! at hand; these are written from rules M3 to M6. The order of the work, the
//! values of the inputs and the distance are the original's.

use crate::types::computation::model::{
    ComponentId, ComputationGraph, Data, ModelComponent, Parameter,
};
use crate::types::computation::traits::{ImplicitComponent, ImplicitFunction, ImplicitOperation};
use crate::types::geometry::Vec3;

/// The most parts that a model has.
pub const MOST_PARTS: usize = 64;

/// A part of a model. Inputs are places in the list of parts.
#[derive(Debug, Clone, Copy)]
pub enum Part {
    Const(f64),
    /// Centre and radius.
    Sphere([f64; 3], f64),
    /// Normal and offset.
    Plane([f64; 3], f64),
    Min(u32, u32),
    Max(u32, u32),
    Add(u32, u32),
    Sub(u32, u32),
    Neg(u32),
}

impl Part {
    /// The places that the part reads.
    pub fn inputs(&self) -> Vec<u32> {
        match *self {
            Part::Const(_) | Part::Sphere(..) | Part::Plane(..) => vec![],
            Part::Min(a, b) | Part::Max(a, b) | Part::Add(a, b) | Part::Sub(a, b) => vec![a, b],
            Part::Neg(a) => vec![a],
        }
    }
}

/// The smaller, a number before a NaN (rule F9).
pub fn min(a: f64, b: f64) -> f64 {
    if b.is_nan() {
        a
    } else if a.is_nan() || b < a {
        b
    } else {
        a
    }
}

/// The larger, a number before a NaN (rule F10).
pub fn max(a: f64, b: f64) -> f64 {
    if b.is_nan() {
        a
    } else if a.is_nan() || b > a {
        b
    } else {
        a
    }
}

struct Sphere {
    centre: Vec3<f64>,
    radius: f64,
}

impl ImplicitFunction<f64> for Sphere {
    fn eval(&self, x: f64, y: f64, z: f64) -> f64 {
        self.centre.distance_to_coord(x, y, z) - self.radius
    }
}

struct Plane {
    normal: Vec3<f64>,
    offset: f64,
}

impl ImplicitFunction<f64> for Plane {
    fn eval(&self, x: f64, y: f64, z: f64) -> f64 {
        ((x * self.normal.x + y * self.normal.y) + z * self.normal.z) - self.offset
    }
}

struct Min;

impl ImplicitOperation<f64> for Min {
    fn eval(&self, inputs: &[f64]) -> f64 {
        min(inputs[0], inputs[1])
    }
    fn inputs(&self) -> &[&str] {
        &["a", "b"]
    }
}

struct Max;

impl ImplicitOperation<f64> for Max {
    fn eval(&self, inputs: &[f64]) -> f64 {
        max(inputs[0], inputs[1])
    }
    fn inputs(&self) -> &[&str] {
        &["a", "b"]
    }
}

struct Add;

impl ImplicitOperation<f64> for Add {
    fn eval(&self, inputs: &[f64]) -> f64 {
        inputs[0] + inputs[1]
    }
    fn inputs(&self) -> &[&str] {
        &["a", "b"]
    }
}

struct Sub;

impl ImplicitOperation<f64> for Sub {
    fn eval(&self, inputs: &[f64]) -> f64 {
        inputs[0] - inputs[1]
    }
    fn inputs(&self) -> &[&str] {
        &["a", "b"]
    }
}

struct Neg;

impl ImplicitOperation<f64> for Neg {
    fn eval(&self, inputs: &[f64]) -> f64 {
        -inputs[0]
    }
    fn inputs(&self) -> &[&str] {
        &["a"]
    }
}

/// The parts have no parameters to read or set.
macro_rules! component {
    ($($part:ident)*) => {$(
        impl ImplicitComponent<f64> for $part {
            fn parameters(&self) -> &[Parameter] {
                &[]
            }
            fn read_parameter(&self, _: &str) -> Option<Data<f64>> {
                None
            }
            fn set_parameter(&mut self, _: &str, _: Data<f64>) {}
            fn name(&self) -> &'static str {
                stringify!($part)
            }
        }
    )*};
}

component!(Sphere Plane Min Max Add Sub Neg);

fn component(part: &Part) -> ModelComponent<f64> {
    let at = |c: [f64; 3]| Vec3::new(c[0], c[1], c[2]);
    match *part {
        Part::Const(value) => ModelComponent::Constant(value),
        Part::Sphere(centre, radius) => ModelComponent::Function(Box::new(Sphere {
            centre: at(centre),
            radius,
        })),
        Part::Plane(normal, offset) => ModelComponent::Function(Box::new(Plane {
            normal: at(normal),
            offset,
        })),
        Part::Min(..) => ModelComponent::Operation(Box::new(Min)),
        Part::Max(..) => ModelComponent::Operation(Box::new(Max)),
        Part::Add(..) => ModelComponent::Operation(Box::new(Add)),
        Part::Sub(..) => ModelComponent::Operation(Box::new(Sub)),
        Part::Neg(..) => ModelComponent::Operation(Box::new(Neg)),
    }
}

/// A model that the rules accept.
pub struct Model {
    components: Vec<ModelComponent<f64>>,
    inputs: Vec<Vec<usize>>,
}

impl Model {
    /// None where cause 4 refuses the model (rule C4).
    pub fn new(parts: &[Part]) -> Option<Model> {
        if parts.is_empty() || parts.len() > MOST_PARTS {
            return None;
        }
        let mut inputs = Vec::new();
        for (place, part) in parts.iter().enumerate() {
            let reads: Vec<usize> = part.inputs().iter().map(|&i| i as usize).collect();
            if reads.iter().any(|&i| i >= place) {
                return None;
            }
            inputs.push(reads);
        }
        let components = parts.iter().map(component).collect();
        Some(Model { components, inputs })
    }

    /// The original's graph of the model.
    pub fn graph(&self) -> Graph<'_> {
        let mut graph = ComputationGraph::new();
        for (component, reads) in self.components.iter().zip(&self.inputs) {
            let ids = reads.iter().map(|&i| ComponentId(i)).collect();
            graph.add_component(component, ids);
        }
        Graph { graph }
    }
}

/// The original's computation graph.
pub struct Graph<'a> {
    pub(crate) graph: ComputationGraph<'a, f64>,
}

impl Graph<'_> {
    pub fn evaluate_at_coord(&self, x: f64, y: f64, z: f64) -> f64 {
        self.graph.evaluate_at_coord(x, y, z)
    }
}
