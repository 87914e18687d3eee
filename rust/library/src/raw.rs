//! The functions of the static library. A slice is its address and its length; each returns
//! whether it accepts, and tells the number of a refusal and the length or the place.

extern "C" {
    pub fn xliff_desk_check(
        table: *const u8,
        length: usize,
        number: *mut u8,
        value: *mut usize,
    ) -> bool;

    pub fn xliff_desk_split(
        table: *const u8,
        length: usize,
        part: u16,
        source_cut: u16,
        target_cut: u16,
        new_id: u16,
        out: *mut u8,
        room: usize,
        number: *mut u8,
        value: *mut usize,
    ) -> bool;

    pub fn xliff_desk_join(
        table: *const u8,
        length: usize,
        part: u16,
        out: *mut u8,
        room: usize,
        number: *mut u8,
        value: *mut usize,
    ) -> bool;

    pub fn xliff_desk_set_target(
        table: *const u8,
        length: usize,
        part: u16,
        state: u8,
        content: *const u8,
        content_length: usize,
        out: *mut u8,
        room: usize,
        number: *mut u8,
        value: *mut usize,
    ) -> bool;

    pub fn xliff_desk_remove_target(
        table: *const u8,
        length: usize,
        part: u16,
        out: *mut u8,
        room: usize,
        number: *mut u8,
        value: *mut usize,
    ) -> bool;

    pub fn xliff_desk_rewrite(
        table: *const u8,
        length: usize,
        side: u8,
        id: u16,
        form: u8,
        out: *mut u8,
        room: usize,
        number: *mut u8,
        value: *mut usize,
    ) -> bool;

    pub fn xliff_desk_read_xml(
        xml: *const u8,
        length: usize,
        out: *mut u8,
        room: usize,
        number: *mut u8,
        value: *mut usize,
    ) -> bool;

    pub fn xliff_desk_write_xml(
        table: *const u8,
        length: usize,
        out: *mut u8,
        room: usize,
        number: *mut u8,
        value: *mut usize,
    ) -> bool;

    pub fn xliff_desk_sheet(
        table: *const u8,
        length: usize,
        out: *mut u8,
        room: usize,
        number: *mut u8,
        value: *mut usize,
    ) -> bool;

    pub fn xliff_desk_view(
        role: u8,
        positions: *const u8,
        count: usize,
        table: *const u8,
        length: usize,
        out: *mut u8,
        room: usize,
        number: *mut u8,
        value: *mut usize,
    ) -> bool;

    pub fn xliff_desk_granted_call(
        role: u8,
        positions: *const u8,
        count: usize,
        table: *const u8,
        length: usize,
        request: *const u8,
        request_length: usize,
        out: *mut u8,
        room: usize,
        number: *mut u8,
        value: *mut usize,
    ) -> bool;

    /// `out` is an array of 1,048,576 bytes.
    pub fn xliff_desk_job(job: *const u8, length: usize, out: *mut u8) -> usize;
}
