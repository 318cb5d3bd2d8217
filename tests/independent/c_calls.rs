//! The calls of include/snipefeather.h, for the benchmark and for soak.

/// A row of the report: four words.
#[repr(C)]
#[derive(Clone, Copy, Default)]
pub struct SfRow {
    pub job: u32,
    pub point: u32,
    pub earliest: u32,
    pub latest: u32,
}

/// Declares the calls. A library may have each under another name, with this before its own.
macro_rules! c_calls {
    ($before:literal) => {
        extern "C" {
            #[link_name = concat!($before, "sf_fact_check")]
            pub fn sf_fact_check(
                plant: *const u8,
                plant_len: usize,
                offer: *const u8,
                offer_len: usize,
            ) -> u32;
            #[link_name = concat!($before, "sf_write_plant")]
            pub fn sf_write_plant(
                actions: *const u32,
                actions_len: usize,
                plant: *mut u8,
                plant_len: usize,
                written: *mut u32,
                written_len: usize,
            ) -> u32;
            #[link_name = concat!($before, "sf_fresh")]
            pub fn sf_fresh(board: *mut u32, board_len: usize, horizon: u32, lead: u32) -> u32;
            #[link_name = concat!($before, "sf_plan")]
            pub fn sf_plan(
                board: *mut u32,
                board_len: usize,
                plant: *const u8,
                plant_len: usize,
                offer: *const u8,
                offer_len: usize,
                cause: *mut u32,
                cause_len: usize,
            ) -> u32;
            #[link_name = concat!($before, "sf_send")]
            pub fn sf_send(board: *mut u32, board_len: usize, place: u32) -> u32;
            #[link_name = concat!($before, "sf_clock")]
            pub fn sf_clock(board: *mut u32, board_len: usize, c: u32) -> u32;
            #[link_name = concat!($before, "sf_retire")]
            pub fn sf_retire(board: *mut u32, board_len: usize) -> u32;
            #[link_name = concat!($before, "sf_report")]
            pub fn sf_report(
                board: *const u32,
                board_len: usize,
                rows: *mut SfRow,
                rows_len: usize,
            ) -> u32;
        }
    };
}

c_calls!("");
