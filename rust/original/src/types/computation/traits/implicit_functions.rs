// Stands in for the original's file of this name, which is not in the shared
// folder: the traits with the signatures that the other files use.

use crate::types::computation::model::{Data, Parameter};

/// What every component has: a name and parameters.
pub trait ImplicitComponent<T>: Send + Sync {
    fn parameters(&self) -> &[Parameter];
    fn read_parameter(&self, parameter_name: &str) -> Option<Data<T>>;
    fn set_parameter(&mut self, parameter_name: &str, data: Data<T>);
    fn name(&self) -> &'static str;
}

/// A value for each point.
pub trait ImplicitFunction<T>: ImplicitComponent<T> {
    fn eval(&self, x: T, y: T, z: T) -> T;
}

/// A value from the values of other components.
pub trait ImplicitOperation<T>: ImplicitComponent<T> {
    fn eval(&self, inputs: &[T]) -> T;
    fn inputs(&self) -> &[&str];
}
