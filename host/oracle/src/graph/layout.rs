//! An object's bytes, read and written by position.

use crate::{
    graph::{Graph, RepackError},
    serialize::ObjIdx,
    types::Scalar,
};

/// The bytes of one object. Positions outside them panic.
pub(crate) struct DataBytes<'a>(&'a mut [u8]);

impl<'a> DataBytes<'a> {
    pub(crate) fn from_graph(graph: &'a mut Graph, obj_idx: ObjIdx) -> Result<Self, RepackError> {
        graph
            .mut_vertex_data(obj_idx)
            .map(Self)
            .ok_or(RepackError::GraphErrorInvalidObjIndex)
    }

    pub(crate) fn len(&self) -> usize {
        self.0.len()
    }

    pub(crate) fn read_at<T: Scalar>(&self, position: usize) -> T {
        T::read(&self.0[position..]).expect("a number within the object")
    }

    pub(crate) fn write_at<T: Scalar>(&mut self, value: T, position: usize) {
        value.write(&mut self.0[position..]);
    }
}
