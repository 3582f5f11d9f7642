// Stands in for the original's parameters of components, which are not in the
// shared folder. Nothing here computes.

use crate::types::geometry::Vec3;
use std::fmt::{self, Debug, Display};

#[derive(Debug, Clone, Copy, PartialEq, Eq)]
pub enum DataType {
    Value,
    Vec3,
}

#[derive(Debug, Clone)]
pub enum Data<T> {
    Value(T),
    Vec3(Vec3<T>),
}

impl<T> Data<T> {
    pub fn get_value(&self) -> Option<&T> {
        match self {
            Data::Value(value) => Some(value),
            Data::Vec3(_) => None,
        }
    }
}

impl<T: Debug> Display for Data<T> {
    fn fmt(&self, f: &mut fmt::Formatter) -> fmt::Result {
        write!(f, "{self:?}")
    }
}

#[derive(Debug, Clone)]
pub struct Parameter {
    pub name: &'static str,
    pub data_type: DataType,
}

impl Parameter {
    pub const fn new(name: &'static str, data_type: DataType) -> Self {
        Self { name, data_type }
    }

    pub fn set_vec3_from_param<T: Copy>(
        name: &str,
        data: &Data<T>,
        wanted: &str,
        target: &mut Vec3<T>,
    ) -> bool {
        match data {
            Data::Vec3(value) if name == wanted => {
                *target = *value;
                true
            }
            _ => false,
        }
    }
}
