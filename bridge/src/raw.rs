//! The functions of the archive as they stand in `crates/exports/src/lib.rt`, and one safe function for each, over
//! lent slices. The operations ask nothing of their caller, so a safe function has nothing to test: a slice of Rust
//! is what the archive takes, a pointer and a length.

/// An answer in four numbers. Accepted, `number` is 0 and `count` is what was written; refused, `number` is 1 to 20.
#[repr(C)]
#[derive(Clone, Copy, Debug, PartialEq, Eq)]
pub struct Reply {
    pub number: u32,
    pub sheet: u32,
    pub place: u32,
    pub count: u32,
}

/// A digest, and the answer that goes with it; refused, the bytes are all 0.
#[repr(C)]
#[derive(Clone, Copy, Debug, PartialEq, Eq)]
pub struct Digested {
    pub reply: Reply,
    pub bytes: [u8; 32],
}

/// A row of comma-separated text. `number` is 0 where it is one, 18 where no row begins there, 17 where the text breaks
/// RFC 4180; then `start` is where it was asked, and `stop` and `next` are the same place: there too for 18, where the
/// text breaks for 17.
#[repr(C)]
#[derive(Clone, Copy, Debug, Default, PartialEq, Eq)]
pub struct RowAt {
    pub number: u32,
    pub start: usize,
    pub stop: usize,
    pub next: usize,
}

mod archive {
    use super::{Digested, Reply, RowAt};

    extern "C" {
        pub fn nurbellat_read_statement(bytes: *const u8, n: usize) -> Reply;
        pub fn nurbellat_read_schema(bytes: *const u8, n: usize) -> Reply;
        pub fn nurbellat_check_schema_aware(
            statement: *const u8,
            m: usize,
            schema: *const u8,
            n: usize,
            list: *mut u32,
            places: usize,
        ) -> Reply;
        pub fn nurbellat_margin_list(
            statement: *const u8,
            m: usize,
            schema: *const u8,
            n: usize,
            list: *mut u32,
            places: usize,
        ) -> Reply;
        pub fn nurbellat_message(
            statement: *const u8,
            m: usize,
            schema: *const u8,
            n: usize,
            k: u32,
            text: *mut u8,
            bytes: usize,
        ) -> Reply;
        pub fn nurbellat_label_names(
            schema: *const u8,
            n: usize,
            out: *mut u32,
            places: usize,
        ) -> Reply;
        pub fn nurbellat_rel_type_names(
            schema: *const u8,
            n: usize,
            out: *mut u32,
            places: usize,
        ) -> Reply;
        pub fn nurbellat_parameter_names(
            schema: *const u8,
            n: usize,
            out: *mut u32,
            places: usize,
        ) -> Reply;
        pub fn nurbellat_relationship_endpoints(
            schema: *const u8,
            n: usize,
            rel_type: *const u8,
            m: usize,
            out: *mut u32,
            places: usize,
        ) -> Reply;
        pub fn nurbellat_schema_digest(schema: *const u8, n: usize) -> Digested;
        pub fn nurbellat_row_statement(
            text: *const u8,
            n: usize,
            label: *const u8,
            m: usize,
            row: u32,
            out: *mut u8,
            bytes: usize,
        ) -> Reply;
        pub fn nurbellat_next_row(text: *const u8, n: usize, at: usize) -> RowAt;
        pub fn nurbellat_join_statements(
            first: *const u8,
            m: usize,
            second: *const u8,
            n: usize,
            out: *mut u8,
            bytes: usize,
        ) -> Reply;
        pub fn nurbellat_thin_statement(
            bytes: *const u8,
            n: usize,
            out: *mut u8,
            places: usize,
        ) -> Reply;
        pub fn nurbellat_thin_schema(
            bytes: *const u8,
            n: usize,
            out: *mut u8,
            places: usize,
        ) -> Reply;
    }
}

pub fn read_statement(bytes: &[u8]) -> Reply {
    // SAFETY: pointer and length are of one slice, which lives through the call; so below.
    unsafe { archive::nurbellat_read_statement(bytes.as_ptr(), bytes.len()) }
}

pub fn read_schema(bytes: &[u8]) -> Reply {
    // SAFETY: as above.
    unsafe { archive::nurbellat_read_schema(bytes.as_ptr(), bytes.len()) }
}

pub fn check_schema_aware(statement: &[u8], schema: &[u8], list: &mut [u32]) -> Reply {
    // SAFETY: as above; the list is lent to the call alone.
    unsafe {
        archive::nurbellat_check_schema_aware(
            statement.as_ptr(),
            statement.len(),
            schema.as_ptr(),
            schema.len(),
            list.as_mut_ptr(),
            list.len(),
        )
    }
}

pub fn margin_list(statement: &[u8], schema: &[u8], list: &mut [u32]) -> Reply {
    // SAFETY: as above.
    unsafe {
        archive::nurbellat_margin_list(
            statement.as_ptr(),
            statement.len(),
            schema.as_ptr(),
            schema.len(),
            list.as_mut_ptr(),
            list.len(),
        )
    }
}

pub fn message(statement: &[u8], schema: &[u8], k: u32, text: &mut [u8]) -> Reply {
    // SAFETY: as above.
    unsafe {
        archive::nurbellat_message(
            statement.as_ptr(),
            statement.len(),
            schema.as_ptr(),
            schema.len(),
            k,
            text.as_mut_ptr(),
            text.len(),
        )
    }
}

pub fn label_names(schema: &[u8], out: &mut [u32]) -> Reply {
    // SAFETY: as above.
    unsafe {
        archive::nurbellat_label_names(schema.as_ptr(), schema.len(), out.as_mut_ptr(), out.len())
    }
}

pub fn rel_type_names(schema: &[u8], out: &mut [u32]) -> Reply {
    // SAFETY: as above.
    unsafe {
        archive::nurbellat_rel_type_names(
            schema.as_ptr(),
            schema.len(),
            out.as_mut_ptr(),
            out.len(),
        )
    }
}

pub fn parameter_names(schema: &[u8], out: &mut [u32]) -> Reply {
    // SAFETY: as above.
    unsafe {
        archive::nurbellat_parameter_names(
            schema.as_ptr(),
            schema.len(),
            out.as_mut_ptr(),
            out.len(),
        )
    }
}

pub fn relationship_endpoints(schema: &[u8], rel_type: &[u8], out: &mut [u32]) -> Reply {
    // SAFETY: as above.
    unsafe {
        archive::nurbellat_relationship_endpoints(
            schema.as_ptr(),
            schema.len(),
            rel_type.as_ptr(),
            rel_type.len(),
            out.as_mut_ptr(),
            out.len(),
        )
    }
}

pub fn schema_digest(schema: &[u8]) -> Digested {
    // SAFETY: as above.
    unsafe { archive::nurbellat_schema_digest(schema.as_ptr(), schema.len()) }
}

pub fn row_statement(text: &[u8], label: &[u8], row: u32, out: &mut [u8]) -> Reply {
    // SAFETY: as above.
    unsafe {
        archive::nurbellat_row_statement(
            text.as_ptr(),
            text.len(),
            label.as_ptr(),
            label.len(),
            row,
            out.as_mut_ptr(),
            out.len(),
        )
    }
}

pub fn next_row(text: &[u8], at: usize) -> RowAt {
    // SAFETY: as above.
    unsafe { archive::nurbellat_next_row(text.as_ptr(), text.len(), at) }
}

pub fn join_statements(first: &[u8], second: &[u8], out: &mut [u8]) -> Reply {
    // SAFETY: as above.
    unsafe {
        archive::nurbellat_join_statements(
            first.as_ptr(),
            first.len(),
            second.as_ptr(),
            second.len(),
            out.as_mut_ptr(),
            out.len(),
        )
    }
}

pub fn thin_statement(bytes: &[u8], out: &mut [u8]) -> Reply {
    // SAFETY: as above.
    unsafe {
        archive::nurbellat_thin_statement(bytes.as_ptr(), bytes.len(), out.as_mut_ptr(), out.len())
    }
}

pub fn thin_schema(bytes: &[u8], out: &mut [u8]) -> Reply {
    // SAFETY: as above.
    unsafe {
        archive::nurbellat_thin_schema(bytes.as_ptr(), bytes.len(), out.as_mut_ptr(), out.len())
    }
}
