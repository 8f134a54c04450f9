//! The calls of the archives `libmpeg1.a` and `libcount.a` as they are declared in hosts/c/mpeg1.h, which says what each takes and gives. Each
//! slice is a pointer and a length. The programs under hosts/ and tests/ that call an archive declare them by this file.
#![allow(dead_code)]

extern "C" {
    pub fn mpeg1_open(
        stream: *const u8,
        stream_bytes: usize,
        store: *mut u8,
        store_bytes: usize,
        numbers: *mut usize,
        numbers_length: usize,
        integers: *mut i32,
        integers_length: usize,
        matrices: *mut u8,
        matrices_length: usize,
        clock: *mut f64,
        clock_length: usize,
    ) -> u32;
    pub fn mpeg1_decode(
        stream: *const u8,
        stream_bytes: usize,
        store: *mut u8,
        store_bytes: usize,
        numbers: *mut usize,
        numbers_length: usize,
        integers: *mut i32,
        integers_length: usize,
        matrices: *mut u8,
        matrices_length: usize,
        clock: *mut f64,
        clock_length: usize,
        picture: *mut usize,
        picture_length: usize,
        time: *mut f64,
    ) -> u32;
    pub fn mpeg1_count(stream: *const u8, stream_bytes: usize, store: *mut u8, store_bytes: usize, pictures: *mut usize) -> u32;
    pub fn mpeg1_write_rgb_scaled(
        store: *const u8,
        store_bytes: usize,
        numbers: *const usize,
        numbers_length: usize,
        integers: *const i32,
        integers_length: usize,
        matrices: *const u8,
        matrices_length: usize,
        index: usize,
        area: *mut u32,
        area_length: usize,
        width: usize,
        height: usize,
    ) -> u32;
    pub fn mpeg1_version() -> u32;
    pub fn mpeg1_record_numbers() -> usize;
    pub fn mpeg1_record_integers() -> usize;
    pub fn mpeg1_record_matrices() -> usize;
    pub fn mpeg1_record_floats() -> usize;
    pub fn mpeg1_picture_numbers() -> usize;
    pub fn mpeg1_store_bytes(width: usize, height: usize) -> usize;
    pub fn mpeg1_width(numbers: *const usize, numbers_length: usize) -> usize;
    pub fn mpeg1_height(numbers: *const usize, numbers_length: usize) -> usize;
    pub fn mpeg1_picture_type(numbers: *const usize, numbers_length: usize) -> u32;
    pub fn mpeg1_position(numbers: *const usize, numbers_length: usize) -> usize;
    pub fn mpeg1_frame_rate(clock: *const f64, clock_length: usize) -> f64;
    pub fn mpeg1_pixel_aspect_ratio(clock: *const f64, clock_length: usize) -> f64;
    pub fn mpeg1_row_bytes(numbers: *const usize, numbers_length: usize, plane: usize) -> usize;
    pub fn mpeg1_plane_bytes(numbers: *const usize, numbers_length: usize, plane: usize) -> usize;
    pub fn mpeg1_plane_start(numbers: *const usize, numbers_length: usize, index: usize, plane: usize) -> usize;
}
