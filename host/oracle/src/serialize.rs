//! Links between objects, and the bytes of one object as they are gathered.

/// The number of an object.
pub type ObjIdx = usize;

/// How many bytes an offset takes. Only two-byte offsets occur.
pub(crate) enum LinkWidth {
    Two,
}

/// An offset field of an object, and the object that it leads to.
#[derive(Clone, Copy, Debug)]
pub(crate) struct Link {
    obj_idx: ObjIdx,
    position: u32,
}

impl Link {
    pub(crate) fn new(obj_idx: ObjIdx, position: u32) -> Self {
        Self { obj_idx, position }
    }

    pub(crate) fn obj_idx(&self) -> ObjIdx {
        self.obj_idx
    }

    pub(crate) fn position(&self) -> u32 {
        self.position
    }

    pub(crate) fn update_position(&mut self, position: u32) {
        self.position = position;
    }
}

/// The one failure there is here: the bytes do not fit the room asked for.
#[derive(Debug)]
pub(crate) struct SerializeErrorFlags;

/// Gathers the bytes of a single object.
pub(crate) struct Serializer {
    bytes: Vec<u8>,
    room: usize,
}

impl Serializer {
    pub(crate) fn new(room: usize) -> Self {
        Self {
            bytes: Vec::with_capacity(room),
            room,
        }
    }

    /// A single object has nothing to open.
    pub(crate) fn start_serialize(&mut self) -> Result<(), SerializeErrorFlags> {
        Ok(())
    }

    /// Nor anything to close.
    pub(crate) fn end_serialize(&mut self) {}

    pub(crate) fn embed_bytes(&mut self, bytes: &[u8]) -> Result<(), SerializeErrorFlags> {
        if self.bytes.len() + bytes.len() > self.room {
            return Err(SerializeErrorFlags);
        }
        self.bytes.extend_from_slice(bytes);
        Ok(())
    }

    pub(crate) fn copy_bytes(&self) -> Vec<u8> {
        self.bytes.clone()
    }
}
