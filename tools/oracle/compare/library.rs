//! The library's functions, as its header declares them: a slice is a pointer and a length. `folgrist_version` has no counterpart.
//! A call is safe where each pointer is of live memory with room for the length beside it.

/// H, as the arguments of a call.
macro_rules! with_head {
    ($($name:ident($($argument:ident: $type:ty),*);)*) => {
        unsafe extern "C" {
            $(pub fn $name(
                lsf: u8,
                bit_rate: u32,
                sample_rate: u32,
                padding: u8,
                protection_bit: u8,
                mode: u8,
                mode_extension: u8,
                $($argument: $type),*
            ) -> u32;)*
        }
    };
}

/// A function that writes side information.
pub type Writer = unsafe extern "C" fn(
    u8,
    u32,
    u32,
    u8,
    u8,
    u8,
    u8,
    *const u32,
    usize,
    *const u8,
    usize,
    *const u8,
    usize,
    *mut u8,
    usize,
    *mut u32,
    usize,
) -> u32;

with_head! {
    folgrist_select_table(out: *mut u32, length: usize);
    folgrist_frame_size_bytes(out: *mut u64, length: usize);
    folgrist_fixed_bit_budget(out: *mut u32, length: usize);
    folgrist_available_data_bits(banc: u32, out: *mut i64, length: usize);
    folgrist_demand_bits(smr: *const f64, count: usize, out: *mut u64, length: usize);
    folgrist_allocate_bits(
        banc: u32, smr: *const f64, count: usize,
        steps: *mut u32, steps_length: usize, out: *mut u32, length: usize
    );
    folgrist_write_side_info(
        steps: *const u32, steps_count: usize, scfsi: *const u8, scfsi_count: usize,
        index: *const u8, index_count: usize,
        bytes: *mut u8, bytes_length: usize, out: *mut u32, length: usize
    );
    folgrist_read_side_info(
        bytes: *const u8, bytes_count: usize, steps: *mut u32, steps_length: usize,
        scfsi: *mut u8, scfsi_length: usize, index: *mut u8, index_length: usize,
        out: *mut u32, length: usize
    );
    folgrist_check_record(
        steps: *const u32, steps_count: usize, scfsi: *const u8, scfsi_count: usize,
        index: *const u8, index_count: usize, out: *mut u32, length: usize
    );
    folgrist_write_side_info_canonical(
        steps: *const u32, steps_count: usize, scfsi: *const u8, scfsi_count: usize,
        index: *const u8, index_count: usize,
        bytes: *mut u8, bytes_length: usize, out: *mut u32, length: usize
    );
}

unsafe extern "C" {
    pub fn folgrist_table_limits(table: u8, sb: u64, out: *mut u32, length: usize) -> u32;
    pub fn folgrist_nb_steps(table: u8, sb: u64, index: u32, out: *mut u32, length: usize) -> u32;
    pub fn folgrist_allocation_index(
        table: u8,
        sb: u64,
        steps: u32,
        out: *mut u32,
        length: usize,
    ) -> u32;
    pub fn folgrist_class_of_quantization(
        steps: u32,
        cd: *mut f64,
        cd_length: usize,
        out: *mut u32,
        length: usize,
    ) -> u32;
    pub fn folgrist_sample_bits_for(steps: u32) -> u32;
    pub fn folgrist_snr_db(steps: u32, out: *mut f64, length: usize) -> u32;
    pub fn folgrist_pick_scalefactor_index(max_abs: f64) -> u8;
    pub fn folgrist_extract_scalefactor_index(
        samples: *const f64,
        count: usize,
        out: *mut u8,
        length: usize,
    ) -> u32;
    pub fn folgrist_compute_scalefactors(
        samples: *const f64,
        count: usize,
        limit: u64,
        out: *mut u8,
        length: usize,
    ) -> u32;
    pub fn folgrist_select_scfsi(a: u8, b: u8, c: u8, out: *mut u8, length: usize) -> u32;
    pub fn folgrist_quantize_sample(steps: u32, sample: f64, out: *mut u32, length: usize) -> u32;
    pub fn folgrist_write_triplet(
        steps: u32,
        a: f64,
        b: f64,
        c: f64,
        out: *mut u32,
        length: usize,
    ) -> u32;
}
