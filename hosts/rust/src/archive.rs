//! The calls of the archive over slices: the only module with `unsafe`. Each call gets pointers and lengths of slices that live through it, and
//! keeps none of them; no call asks more of its caller.
#![allow(unsafe_code)]

use crate::calls::*;
use std::alloc::{alloc_zeroed, Layout};
use std::ops::Range;

/// The version of the archive.
pub(crate) fn version() -> u32 {
    unsafe { mpeg1_version() }
}

/// The decoder's state: the record, which is plain data, and the store, which holds three pictures.
pub(crate) struct State {
    store: Vec<u8>,
    numbers: Vec<usize>,
    integers: Vec<i32>,
    matrices: Vec<u8>,
    clock: Vec<f64>,
    picture: Vec<usize>,
    shape: Shape,
}

/// What an accepted header fixes: the size that is shown, and where the planes lie. It is asked for once.
#[derive(Clone, Default)]
pub(crate) struct Shape {
    pub width: usize,
    pub height: usize,
    pub row_bytes: [usize; 3],
    planes: [[Range<usize>; 3]; 3],
}

impl Shape {
    fn of(numbers: &[usize]) -> Shape {
        let (n, length) = (numbers.as_ptr(), numbers.len());
        let plane = |index, plane| {
            let (start, bytes) = unsafe { (mpeg1_plane_start(n, length, index, plane), mpeg1_plane_bytes(n, length, plane)) };
            start..start.saturating_add(bytes)
        };
        Shape {
            width: unsafe { mpeg1_width(n, length) },
            height: unsafe { mpeg1_height(n, length) },
            row_bytes: [0, 1, 2].map(|plane| unsafe { mpeg1_row_bytes(n, length, plane) }),
            planes: [0, 1, 2].map(|index| [0, 1, 2].map(|number| plane(index, number))),
        }
    }
}

/// What a hand-out gives: the number of the store, and the time in seconds.
pub(crate) struct Shown {
    pub index: usize,
    pub time: f64,
}

// As many bytes of 0, which `vec![0; n]` would give too, but not refuse where there is not enough memory.
fn zeros(bytes: usize) -> Option<Vec<u8>> {
    let layout = Layout::array::<u8>(bytes).ok()?;
    if bytes == 0 {
        return Some(Vec::new());
    }
    // the layout is not empty, and it is that of a vector with this capacity, whose bytes are all set
    let start = unsafe { alloc_zeroed(layout) };
    (!start.is_null()).then(|| unsafe { Vec::from_raw_parts(start, bytes, bytes) })
}

fn answer(number: u32) -> Result<(), u32> {
    match number {
        0 => Ok(()),
        _ => Err(number),
    }
}

impl State {
    /// A record of zeros, and a store for pictures of this size; none where there is not enough memory.
    pub fn new(width: usize, height: usize) -> Option<State> {
        let (store, numbers, integers) = unsafe { (mpeg1_store_bytes(width, height), mpeg1_record_numbers(), mpeg1_record_integers()) };
        let (matrices, clock, picture) = unsafe { (mpeg1_record_matrices(), mpeg1_record_floats(), mpeg1_picture_numbers()) };
        let (numbers, integers, matrices) = (vec![0; numbers], vec![0; integers], vec![0; matrices]);
        Some(State { store: zeros(store)?, numbers, integers, matrices, clock: vec![0.0; clock], picture: vec![0; picture], shape: Shape::default() })
    }

    pub fn open(&mut self, stream: &[u8]) -> Result<(), u32> {
        let State { store, numbers, integers, matrices, clock, .. } = self;
        answer(unsafe {
            mpeg1_open(
                stream.as_ptr(),
                stream.len(),
                store.as_mut_ptr(),
                store.len(),
                numbers.as_mut_ptr(),
                numbers.len(),
                integers.as_mut_ptr(),
                integers.len(),
                matrices.as_mut_ptr(),
                matrices.len(),
                clock.as_mut_ptr(),
                clock.len(),
            )
        })?;
        self.shape = Shape::of(&self.numbers);
        Ok(())
    }

    pub fn decode(&mut self, stream: &[u8]) -> Result<Shown, u32> {
        let State { store, numbers, integers, matrices, clock, picture, .. } = self;
        let mut time = 0.0;
        answer(unsafe {
            mpeg1_decode(
                stream.as_ptr(),
                stream.len(),
                store.as_mut_ptr(),
                store.len(),
                numbers.as_mut_ptr(),
                numbers.len(),
                integers.as_mut_ptr(),
                integers.len(),
                matrices.as_mut_ptr(),
                matrices.len(),
                clock.as_mut_ptr(),
                clock.len(),
                picture.as_mut_ptr(),
                picture.len(),
                &mut time,
            )
        })?;
        Ok(Shown { index: picture.first().copied().unwrap_or_default(), time })
    }

    pub fn write_rgb_scaled(&self, index: usize, area: &mut [u32], width: usize, height: usize) -> Result<(), u32> {
        let State { store, numbers, integers, matrices, .. } = self;
        answer(unsafe {
            mpeg1_write_rgb_scaled(
                store.as_ptr(),
                store.len(),
                numbers.as_ptr(),
                numbers.len(),
                integers.as_ptr(),
                integers.len(),
                matrices.as_ptr(),
                matrices.len(),
                index,
                area.as_mut_ptr(),
                area.len(),
                width,
                height,
            )
        })
    }

    pub fn shape(&self) -> &Shape {
        &self.shape
    }

    pub fn picture_type(&self) -> u32 {
        unsafe { mpeg1_picture_type(self.numbers.as_ptr(), self.numbers.len()) }
    }

    pub fn frame_rate(&self) -> f64 {
        unsafe { mpeg1_frame_rate(self.clock.as_ptr(), self.clock.len()) }
    }

    pub fn pixel_aspect_ratio(&self) -> f64 {
        unsafe { mpeg1_pixel_aspect_ratio(self.clock.as_ptr(), self.clock.len()) }
    }

    /// Whole bytes of the stream that are read.
    pub fn position(&self) -> usize {
        unsafe { mpeg1_position(self.numbers.as_ptr(), self.numbers.len()) }
    }

    /// The bytes of a plane of a store, whole macroblocks; none where there is no such plane.
    pub fn plane(&self, index: usize, plane: usize) -> &[u8] {
        let range = self.shape.planes.get(index).and_then(|planes| planes.get(plane)).cloned();
        range.and_then(|range| self.store.get(range)).unwrap_or(&[])
    }
}
