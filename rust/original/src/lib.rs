//! The original (joelhi/imlet-rs), built from the shared folder as it is.
//!
//! Each file is included into a module at its original place. What the shared
//! folder does not have is a stub with the signatures that the files use, in
//! `types/`.
//! Ours are `parts.rs`, the shapes and operations of a model as components of
//! the original, and the way to its evaluation; `dense.rs` with `cursors.rs`,
//! the way to the dense field and to its walks from any cursor; `inside.rs`,
//! which reads the sparse field's private parts, and `sampled.rs`, which reads
//! its children; `jobs.rs`, the fields of the ledger's inputs; and `benched.rs`,
//! the way to what the benchmark calls.

pub mod benched;
pub mod dense;
pub mod jobs;
pub mod parts;

/// Asked for by the original's model; nothing here reads it.
pub(crate) const IMLET_VERSION: &str = "8e8b708a30";

/// Includes a file of the shared folder.
macro_rules! shared {
    ($name:literal) => {
        include!(concat!(env!("SHARED_DIR"), "/src--src--", $name, ".rs.txt"));
    };
}

#[allow(warnings)]
pub mod types {
    pub mod geometry {
        mod bounding_box {
            shared!("types--geometry--bounding_box");
        }
        mod vec3f {
            use super::stubs::Clamp;
            shared!("types--geometry--vec3f");
        }
        mod vec3i {
            shared!("types--geometry--vec3i");
        }
        mod stubs;

        pub use bounding_box::BoundingBox;
        pub use stubs::{Line, Transform, Triangle};
        pub use vec3f::Vec3;
        pub use vec3i::Vec3i;

        pub mod traits {
            pub use super::stubs::{SignedDistance, SpatialQuery};
        }
    }

    pub mod computation {
        mod model_error {
            shared!("types--computation--model_error");
        }
        pub use model_error::ModelError;

        pub mod traits {
            include!(concat!(env!("OUT_DIR"), "/traits/mod.rs"));
        }

        pub mod model {
            mod computation_graph {
                shared!("types--computation--model--computation_graph");
            }
            mod implicit_model {
                shared!("types--computation--model--implicit_model");
            }
            mod model_component {
                shared!("types--computation--model--model_component");
            }
            mod stubs;

            pub(crate) use computation_graph::ComputationGraph;
            pub use implicit_model::ImplicitModel;
            pub use model_component::ModelComponent;
            pub(crate) use model_component::{ComponentId, ComponentValues};
            pub use stubs::{Data, DataType, Parameter};
        }

        pub mod data {
            pub mod field_iterator {
                shared!("types--computation--data--field_iterator");
                pub mod cursors;
            }
            mod dense_field {
                shared!("types--computation--data--dense_field");
            }
            mod sparse_field {
                shared!("types--computation--data--sparse_field");
                pub mod inside;
                pub mod sampled;
            }
            pub use dense_field::*;
            pub use sparse_field::*;
        }
    }
}

#[allow(warnings)]
pub mod utils {
    pub mod math_helper {
        shared!("utils--math_helper");
    }
}
