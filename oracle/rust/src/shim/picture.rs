use crate::include::common::bitdepth::BitDepth;
use crate::include::dav1d::headers::Rav1dPixelLayout;
use crate::src::align::AlignedVec64;
use crate::src::disjoint_mut::{DisjointMut, DisjointMutGuard};
use crate::src::strided::Strided;
use crate::src::with_offset::WithOffset;

/// A plane.
pub struct Rav1dPictureDataComponent {
    bytes: DisjointMut<AlignedVec64<u8>>,
    stride: isize,
}

impl Rav1dPictureDataComponent {
    /// A plane with these samples and a stride in samples.
    pub fn new<BD: BitDepth>(samples: &[BD::Pixel], stride: usize) -> Self {
        let size = size_of::<BD::Pixel>();
        let mut bytes = DisjointMut::new(AlignedVec64::<u8>::new());
        bytes.resize(samples.len() * size, 0);
        bytes.mut_slice_as(..).copy_from_slice(samples);
        Self {
            bytes,
            stride: (stride * size) as isize,
        }
    }

    pub fn samples<BD: BitDepth>(&self) -> Vec<BD::Pixel> {
        self.bytes.slice_as(..).to_vec()
    }
}

impl Strided for Rav1dPictureDataComponent {
    fn stride(&self) -> isize {
        self.stride
    }
}

pub type Rav1dPictureDataComponentOffset<'a> = WithOffset<&'a Rav1dPictureDataComponent>;

impl<'a> Rav1dPictureDataComponentOffset<'a> {
    pub fn index_mut<BD: BitDepth>(&self) -> DisjointMutGuard<'a, AlignedVec64<u8>, BD::Pixel> {
        self.data.bytes.mut_element_as(self.offset)
    }

    /// The place's address, which is in the plane or at its end.
    pub fn as_mut_ptr<BD: BitDepth>(&self) -> *mut BD::Pixel {
        let samples = self.data.bytes.as_mut_slice();
        assert!(self.offset * size_of::<BD::Pixel>() <= samples.len());
        samples.cast::<BD::Pixel>().wrapping_add(self.offset)
    }

    pub fn as_ptr<BD: BitDepth>(&self) -> *const BD::Pixel {
        self.as_mut_ptr::<BD>()
    }
}

#[derive(Default)]
pub struct Rav1dPictureParameters {
    pub layout: Rav1dPixelLayout,
}

#[derive(Default)]
pub struct Rav1dPicture {
    pub p: Rav1dPictureParameters,
}
