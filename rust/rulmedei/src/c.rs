//! The functions of `include/rulmedei.h`. A slice is two arguments: a pointer to its first element, then the number of
//! its elements. The eight counts of names are one, a pointer to all of them.

extern "C" {
    pub fn rulmedei_load(
        side: u32,
        knit: u32,
        greys: *const u8,
        greys_length: usize,
        pyramid: *mut i64,
        pyramid_length: usize,
        serials: *mut u32,
        serials_length: usize,
        order: *mut u32,
        order_length: usize,
        progress_side: *mut u32,
        progress_dots: *mut u32,
        progress_knit: *mut u32,
    ) -> u32;

    pub fn rulmedei_advance(
        side: u32,
        dots: u32,
        knit: u32,
        budget: u32,
        pyramid: *mut i64,
        pyramid_length: usize,
        serials: *mut u32,
        serials_length: usize,
        order: *mut u32,
        order_length: usize,
        after: *mut u32,
        made: *mut u32,
    ) -> u32;

    pub fn rulmedei_two_heads(
        side: u32,
        knit: u32,
        greys: *const u8,
        greys_length: usize,
        pyramid: *mut i64,
        pyramid_length: usize,
        serials: *mut u32,
        serials_length: usize,
        order: *mut u32,
        order_length: usize,
        progress_side: *mut u32,
        progress_dots: *mut u32,
        progress_knit: *mut u32,
        made: *mut u32,
        debt: *mut i64,
    ) -> u32;

    pub fn rulmedei_tally(
        side: u32,
        serials: *const u32,
        serials_length: usize,
        level: u32,
        row: u32,
        column: u32,
        dots: *mut u32,
    ) -> u32;

    pub fn rulmedei_levels(
        side: u32,
        greys: *const u8,
        greys_length: usize,
        serials: *const u32,
        serials_length: usize,
        sums: *mut u64,
        sums_length: usize,
    ) -> u32;

    pub fn rulmedei_map_text(
        text: *const u8,
        text_length: usize,
        greys: *mut u8,
        greys_length: usize,
        side: *mut u32,
    ) -> u32;

    pub fn rulmedei_lower_text(
        text: *const u8,
        text_length: usize,
        greys: *mut u8,
        greys_length: usize,
        out: *mut u8,
        out_length: usize,
        length: *mut usize,
    ) -> u32;

    pub fn rulmedei_sketch_quote(
        text: *const u8,
        text_length: usize,
        level: u32,
        lows: *mut u8,
        lows_length: usize,
        highs: *mut u8,
        highs_length: usize,
        caps: *mut u32,
        caps_length: usize,
        side: *mut u32,
        least: *mut u32,
        greatest: *mut u32,
    ) -> u32;

    pub fn rulmedei_drill_list(
        side: u32,
        dots: u32,
        knit: u32,
        pyramid: *const i64,
        pyramid_length: usize,
        serials: *const u32,
        serials_length: usize,
        order: *const u32,
        order_length: usize,
        out: *mut u8,
        out_length: usize,
        length: *mut usize,
    ) -> u32;

    pub fn rulmedei_quote_page(
        side: u32,
        greys: *const u8,
        greys_length: usize,
        serials: *const u32,
        serials_length: usize,
        level: u32,
        out: *mut u8,
        out_length: usize,
        length: *mut usize,
    ) -> u32;

    pub fn rulmedei_sample(seed: u32, side: u32, greys: *mut u8, greys_length: usize, state: *mut u32) -> u32;

    pub fn rulmedei_compare(
        side: u32,
        left: *const u32,
        left_length: usize,
        right: *const u32,
        right_length: usize,
        row: *mut u32,
        column: *mut u32,
    ) -> u32;

    pub fn rulmedei_shelf(
        side: u32,
        n: u32,
        plates: *const u32,
        plates_length: usize,
        list: *mut u32,
        list_length: usize,
    ) -> u32;

    pub fn rulmedei_keep(side: u32, dots: u32, knit: u32, kept: *mut [u64; 8], name: u32) -> u32;

    pub fn rulmedei_restore(
        side: u32,
        dots: u32,
        knit: u32,
        kept: *const [u64; 8],
        name: u32,
        greys: *const u8,
        greys_length: usize,
        pyramid: *mut i64,
        pyramid_length: usize,
        serials: *mut u32,
        serials_length: usize,
        order: *mut u32,
        order_length: usize,
        after: *mut u32,
    ) -> u32;

    pub fn rulmedei_relay(
        side: u32,
        dots: u32,
        knit: u32,
        pyramid: *const i64,
        pyramid_length: usize,
        serials: *const u32,
        serials_length: usize,
        order: *const u32,
        order_length: usize,
        second: *mut i64,
        second_length: usize,
    ) -> u32;

    pub fn rulmedei_renew(side: u32, row: u32, column: u32, pyramid: *mut i64, pyramid_length: usize) -> u32;

    pub fn rulmedei_lower(greys: *mut u8, greys_length: usize);
}
