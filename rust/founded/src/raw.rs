//! The calls as the archive has them: those on graphs of edition 1, in 16-bit words, and those on graphs of edition 2, in 32-bit words. `include/founded.h` says what each pointer must be and
//! what each call answers and leaves.

// SAFETY: these are the signatures of crates/abi_c, in which a slice crosses as a pointer and a length.
unsafe extern "C" {
    pub fn founded_check(graph: *const u16, graph_len: usize) -> u32;

    pub fn founded_needed(
        graph: *const u16,
        graph_len: usize,
        work: *mut u16,
        work_len: usize,
    ) -> u32;

    pub fn founded_prepare(
        graph: *const u16,
        graph_len: usize,
        output: *mut u64,
        output_len: usize,
        work: *mut u16,
        work_len: usize,
    ) -> u32;

    pub fn founded_complete(
        graph: *const u16,
        graph_len: usize,
        never: *const u64,
        never_len: usize,
        atom_never: *const u64,
        atom_never_len: usize,
        output: *mut u64,
        output_len: usize,
        work: *mut u16,
        work_len: usize,
    ) -> u32;

    pub fn founded_unfounded(
        graph: *const u16,
        graph_len: usize,
        never: *const u64,
        never_len: usize,
        atom_never: *const u64,
        atom_never_len: usize,
        output: *mut u64,
        output_len: usize,
        work: *mut u16,
        work_len: usize,
    ) -> u32;

    pub fn founded_undecided(
        graph: *const u16,
        graph_len: usize,
        never: *const u64,
        never_len: usize,
        atom_never: *const u64,
        atom_never_len: usize,
        open: *const u64,
        open_len: usize,
        atom_open: *const u64,
        atom_open_len: usize,
        always: *mut u64,
        always_len: usize,
        sometimes: *mut u64,
        sometimes_len: usize,
        work: *mut u16,
        work_len: usize,
    ) -> u32;

    pub fn founded_compare(
        graph: *const u16,
        graph_len: usize,
        other: *const u16,
        other_len: usize,
    ) -> u32;

    pub fn founded_complete_within(
        graph: *const u16,
        graph_len: usize,
        never: *const u64,
        never_len: usize,
        atom_never: *const u64,
        atom_never_len: usize,
        output: *mut u64,
        output_len: usize,
        work: *mut u16,
        work_len: usize,
        allowance: *mut u64,
    ) -> u32;

    pub fn founded_branch(
        graph: *const u16,
        graph_len: usize,
        pairs: usize,
        never: *const u64,
        never_len: usize,
        atom_never: *const u64,
        atom_never_len: usize,
        output: *mut u64,
        output_len: usize,
        work: *mut u16,
        work_len: usize,
    ) -> u32;

    pub fn founded_wide_check(graph: *const u32, graph_len: usize) -> u64;

    pub fn founded_wide_work_words(graph: *const u32, graph_len: usize) -> u64;

    pub fn founded_wide_needed(
        graph: *const u32,
        graph_len: usize,
        work: *mut u32,
        work_len: usize,
    ) -> u64;

    pub fn founded_wide_prepare(
        graph: *const u32,
        graph_len: usize,
        output: *mut u64,
        output_len: usize,
        work: *mut u32,
        work_len: usize,
    ) -> u64;

    pub fn founded_wide_complete(
        graph: *const u32,
        graph_len: usize,
        never: *const u64,
        never_len: usize,
        atom_never: *const u64,
        atom_never_len: usize,
        output: *mut u64,
        output_len: usize,
        work: *mut u32,
        work_len: usize,
    ) -> u64;
}
