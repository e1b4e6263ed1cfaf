//! The declarations of `include/gandeuch.h`.

unsafe extern "C" {
    pub fn gandeuch_scope(
        tree: *const u8,
        tree_size: usize,
        out: *mut u8,
        out_size: usize,
        size: *mut usize,
    ) -> u8;

    pub fn gandeuch_rename(
        tree: *const u8,
        tree_size: usize,
        mapping: *const u8,
        mapping_size: usize,
        out: *mut u8,
        out_size: usize,
        size: *mut usize,
    ) -> u8;

    pub fn gandeuch_merge_patterns(
        left: *const u8,
        left_size: usize,
        right: *const u8,
        right_size: usize,
        joins: *const u8,
        joins_size: usize,
        left_constants: *const u8,
        left_constants_size: usize,
        right_constants: *const u8,
        right_constants_size: usize,
        out: *mut u8,
        out_size: usize,
        size: *mut usize,
    ) -> u8;

    pub fn gandeuch_merge_queries(
        left: *const u8,
        left_size: usize,
        right: *const u8,
        right_size: usize,
        joins: *const u8,
        joins_size: usize,
        left_constants: *const u8,
        left_constants_size: usize,
        right_constants: *const u8,
        right_constants_size: usize,
        out: *mut u8,
        out_size: usize,
        size: *mut usize,
    ) -> u8;

    pub fn gandeuch_without(
        left: *const u8,
        left_size: usize,
        right: *const u8,
        right_size: usize,
        joins: *const u8,
        joins_size: usize,
        out: *mut u8,
        out_size: usize,
        size: *mut usize,
    ) -> u8;

    pub fn gandeuch_push_constants(
        query: *const u8,
        query_size: usize,
        constants: *const u8,
        constants_size: usize,
        out: *mut u8,
        out_size: usize,
        size: *mut usize,
    ) -> u8;

    pub fn gandeuch_negate(
        query: *const u8,
        query_size: usize,
        out: *mut u8,
        out_size: usize,
        size: *mut usize,
    ) -> u8;

    pub fn gandeuch_bindings(
        tree: *const u8,
        tree_size: usize,
        sets: *const u8,
        sets_size: usize,
        out: *mut u8,
        out_size: usize,
        size: *mut usize,
    ) -> u8;

    pub fn gandeuch_filters(
        tree: *const u8,
        tree_size: usize,
        filters: *const u8,
        filters_size: usize,
        out: *mut u8,
        out_size: usize,
        size: *mut usize,
        list: *mut u16,
        list_size: usize,
        many: *mut usize,
    ) -> u8;

    pub fn gandeuch_namespaces(
        tree: *const u8,
        tree_size: usize,
        table: *const u8,
        table_size: usize,
        out: *mut u8,
        out_size: usize,
        size: *mut usize,
    ) -> u8;
}
