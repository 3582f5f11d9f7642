// Stands in for files of the original's geometry that are not in the shared
// folder. Nothing here computes; the types only have what the others name.

use super::{BoundingBox, Vec3};
use num_traits::Float;

/// `clamp` of a float, which older versions of num-traits do not have.
pub trait Clamp {
    fn clamp(self, min: Self, max: Self) -> Self;
}

impl<T: Float> Clamp for T {
    fn clamp(self, min: T, max: T) -> T {
        if self < min {
            min
        } else if self > max {
            max
        } else {
            self
        }
    }
}

#[derive(Debug, Clone, Copy)]
pub struct Line<T> {
    pub start: Vec3<T>,
    pub end: Vec3<T>,
}

impl<T> Line<T> {
    pub fn new(start: Vec3<T>, end: Vec3<T>) -> Self {
        Self { start, end }
    }
}

#[derive(Debug, Clone, Copy)]
pub struct Triangle<T> {
    pub p1: Vec3<T>,
    pub p2: Vec3<T>,
    pub p3: Vec3<T>,
}

impl<T> Triangle<T> {
    pub fn new(p1: Vec3<T>, p2: Vec3<T>, p3: Vec3<T>) -> Self {
        Self { p1, p2, p3 }
    }
}

#[derive(Debug, Clone, Copy)]
pub struct Transform<T> {
    pub translation: Vec3<T>,
    pub rotation: Vec3<T>,
}

pub trait SpatialQuery<T> {
    fn bounds(&self) -> BoundingBox<T>;
}

pub trait SignedDistance<T> {
    fn signed_distance(&self, x: T, y: T, z: T) -> T;
}
