//! `include/tfs_trace.h`.

/// `tfs_entry`: the numbers of a record. Those that a kind does not have are 0 when read.
#[repr(C)]
#[derive(Clone, Copy, Debug, Default, PartialEq, Eq)]
pub struct Entry {
    /// The kind, 1 to 5; 0 is malformed.
    pub kind: u64,
    /// The size of a create.
    pub size: u64,
    /// The offset of a read or a write.
    pub offset: u64,
    /// The length of the buffer of a read.
    pub length: u64,
    /// The number of the expected refusal; 0 is granted.
    pub refusal: u64,
    /// Granted: the count of a write, the number of free bytes.
    pub value: u64,
}

/// `tfs_record`.
#[repr(C)]
#[derive(Clone, Copy, Debug, PartialEq, Eq)]
pub struct Record {
    /// The kind and the numbers.
    pub entry: Entry,
    /// Where the name begins in the trace.
    pub name_at: u64,
    /// The length of the name.
    pub name_length: u64,
    /// Where the bytes begin in the trace.
    pub bytes_at: u64,
    /// The length of the bytes.
    pub bytes_length: u64,
    /// Where the next record starts.
    pub next: u64,
}

/// `tfs_written`.
#[repr(C)]
#[derive(Clone, Copy, Debug, PartialEq, Eq)]
pub struct Written {
    /// The number of the refusal; 0 is granted.
    pub refusal: u64,
    /// The bytes written.
    pub length: u64,
}

/// `tfs_replayed`.
#[repr(C)]
#[derive(Clone, Copy, Debug, PartialEq, Eq)]
pub struct Replayed {
    /// 0 all replayed, 1 malformed, 2 differs, 3 refused.
    pub outcome: u64,
    /// The number of records replayed, or that of the record it stopped at.
    pub number: u64,
    /// The number of the refusal.
    pub refusal: u64,
    /// The slot or block at fault.
    pub place: u64,
}

layout!(Entry: 48, kind at 0, size at 8, offset at 16, length at 24, refusal at 32, value at 40);
layout!(Record: 88, entry at 0, name_at at 48, name_length at 56, bytes_at at 64,
    bytes_length at 72, next at 80);
layout!(Written: 16, refusal at 0, length at 8);
layout!(Replayed: 32, outcome at 0, number at 8, refusal at 16, place at 24);

extern "C" {
    fn tfs_trace_read(trace: *const u8, trace_length: usize, at: usize) -> Record;
    fn tfs_trace_write(
        out: *mut u8,
        out_length: usize,
        entry: Entry,
        name: *const u8,
        name_length: usize,
        bytes: *const u8,
        bytes_length: usize,
    ) -> Written;
    fn tfs_replay(
        image: *mut u8,
        image_length: usize,
        trace: *const u8,
        trace_length: usize,
    ) -> Replayed;
}

/// Reads the record at a position.
pub fn read(trace: &[u8], at: usize) -> Record {
    unsafe { tfs_trace_read(trace.as_ptr(), trace.len(), at) }
}

/// Writes a record to the start of a buffer.
pub fn write(out: &mut [u8], entry: Entry, name: &[u8], bytes: &[u8]) -> Written {
    unsafe {
        tfs_trace_write(
            out.as_mut_ptr(),
            out.len(),
            entry,
            name.as_ptr(),
            name.len(),
            bytes.as_ptr(),
            bytes.len(),
        )
    }
}

/// Replays a trace on a volume.
pub fn replay(image: &mut [u8], trace: &[u8]) -> Replayed {
    unsafe { tfs_replay(image.as_mut_ptr(), image.len(), trace.as_ptr(), trace.len()) }
}
