//! The entry points as include/catalogue.h declares them. Every slice is a pointer and a length.

unsafe extern "C" {
    pub fn catalogue_empty_map(map: *mut u8, map_len: usize) -> u32;
    pub fn catalogue_fresh_node(
        header: *mut u8,
        header_len: usize,
        id: u64,
        incarnation: u64,
    ) -> u32;
    pub fn catalogue_apply(
        map: *mut u8,
        map_len: usize,
        request: *const u8,
        request_len: usize,
    ) -> u32;
    pub fn catalogue_apply_words(
        map: *mut u8,
        map_len: usize,
        request: *const u8,
        request_len: usize,
        text: *mut u8,
        text_len: usize,
        answer: *mut u8,
        answer_len: usize,
    ) -> u32;
    pub fn catalogue_place(
        map: *const u8,
        map_len: usize,
        shards: u32,
        replication: u32,
        lists: *mut u8,
        lists_len: usize,
    ) -> u32;
    pub fn catalogue_replacement(
        map: *const u8,
        map_len: usize,
        name: *const u8,
        name_len: usize,
        shard: u32,
        answer: *mut u8,
        answer_len: usize,
    ) -> u32;
    pub fn catalogue_place_losses(
        map: *const u8,
        map_len: usize,
        name: *const u8,
        name_len: usize,
        list: *mut u8,
        list_len: usize,
        answer: *mut u8,
        answer_len: usize,
    ) -> u32;
    pub fn catalogue_count_placements(
        map: *const u8,
        map_len: usize,
        name: *const u8,
        name_len: usize,
        dimension: u32,
        shards: u32,
        replication: u32,
        ids: *const u8,
        ids_len: usize,
        lists: u32,
        nodes: u32,
        counts: *mut u8,
        counts_len: usize,
    ) -> u32;
    pub fn catalogue_shard_of(id: u64, shards: u32) -> u32;
    pub fn catalogue_version() -> u32;
    pub fn catalogue_show_map(
        header: *mut u8,
        header_len: usize,
        map: *const u8,
        map_len: usize,
        fresh: u64,
        starts: *mut u8,
        starts_len: usize,
        answer: *mut u8,
        answer_len: usize,
    ) -> u32;
    pub fn catalogue_grant(
        header: *mut u8,
        header_len: usize,
        incarnation: u64,
        sent: u64,
        lease: u64,
    ) -> u32;
    pub fn catalogue_write(
        header: *mut u8,
        header_len: usize,
        stores: *mut u8,
        stores_len: usize,
        refused: *mut u8,
        refused_len: usize,
        now: u64,
        least_in_sync: u64,
        message: *const u8,
        message_len: usize,
        answer: *mut u8,
        answer_len: usize,
    ) -> u32;
    pub fn catalogue_search(
        header: *const u8,
        header_len: usize,
        stores: *const u8,
        stores_len: usize,
        refused: *mut u8,
        refused_len: usize,
        now: u64,
        message: *const u8,
        message_len: usize,
        hits: *mut u8,
        hits_len: usize,
        answer: *mut u8,
        answer_len: usize,
    ) -> u32;
    pub fn catalogue_wait(
        header: *mut u8,
        header_len: usize,
        name: *const u8,
        name_len: usize,
        shard: u32,
        epoch: u64,
        offset: u64,
        now: u64,
        ack_timeout: u64,
        peers: *mut u8,
        peers_len: usize,
        answer: *mut u8,
        answer_len: usize,
    ) -> u32;
    pub fn catalogue_replicate(
        header: *mut u8,
        header_len: usize,
        stores: *mut u8,
        stores_len: usize,
        message: *const u8,
        message_len: usize,
        reply: *mut u8,
        reply_len: usize,
    ) -> u32;
    pub fn catalogue_new_epoch(
        header: *mut u8,
        header_len: usize,
        stores: *mut u8,
        stores_len: usize,
        message: *const u8,
        message_len: usize,
        reply: *mut u8,
        reply_len: usize,
    ) -> u32;
    pub fn catalogue_copy(
        header: *mut u8,
        header_len: usize,
        stores: *mut u8,
        stores_len: usize,
        message: *const u8,
        message_len: usize,
        reply: *mut u8,
        reply_len: usize,
    ) -> u32;
    pub fn catalogue_step(
        header: *const u8,
        header_len: usize,
        stores: *const u8,
        stores_len: usize,
        name: *const u8,
        name_len: usize,
        shard: u32,
        epoch: u64,
        peer: u64,
        metric: u8,
        request: *mut u8,
        request_len: usize,
        answer: *mut u8,
        answer_len: usize,
    ) -> u32;
    pub fn catalogue_ack(
        header: *mut u8,
        header_len: usize,
        name: *const u8,
        name_len: usize,
        shard: u32,
        epoch: u64,
        peer: u64,
        step: u8,
        reply: *const u8,
        reply_len: usize,
    ) -> u32;
    pub fn catalogue_outcome(
        header: *mut u8,
        header_len: usize,
        name: *const u8,
        name_len: usize,
        shard: u32,
        epoch: u64,
        peer: u64,
        command: u8,
        applied: u8,
    ) -> u32;
    pub fn catalogue_join(
        shards: u32,
        k: u32,
        answers: *const u8,
        answers_len: usize,
        hits: *mut u8,
        hits_len: usize,
        answer: *mut u8,
        answer_len: usize,
    ) -> u32;
    pub fn catalogue_position(
        hours: u32,
        minutes: u32,
        thousandths: u32,
        minus: u32,
        degrees: u32,
        arcminutes: u32,
        arcthousandths: u32,
        position: *mut u8,
        position_len: usize,
    ) -> u32;
    pub fn catalogue_position_fields(ra: i64, dec: i64, fields: *mut u8, fields_len: usize) -> u32;
    pub fn catalogue_position_vector(ra: i64, dec: i64, vector: *mut u8, vector_len: usize) -> u32;
}
