// Calls that also write what they changed: a part of tests/library/embed.c, which includes it behind what it needs.

// The homes and the live leases of the stripes, by the looks at each.
typedef struct {
    lrc_home homes[STRIPES][LRC_FRAGMENTS];
    lrc_lease leases[STRIPES][LRC_FRAGMENTS];
    bool is_leased[STRIPES][LRC_FRAGMENTS];
} homes_and_leases;

static void look_at_fragments(homes_and_leases *it) {
    memset(it, 0, sizeof *it);
    is_looking = true;
    for (uint16_t s = 0; s < STRIPES; s++) {
        lrc_homes homes;
        if (lrc_embed_homes(&handle, s, &homes) == LRC_DONE) memcpy(it->homes[s], homes.homes, sizeof homes.homes);
        for (uint8_t f = 0; f < LRC_FRAGMENTS; f++) it->is_leased[s][f] = lrc_embed_lease(&handle, s, f, &it->leases[s][f]) == LRC_DONE;
    }
    is_looking = false;
}

// The rows of what differs.
static size_t rows_between(const homes_and_leases *was, const homes_and_leases *now, lrc_change *rows) {
    size_t count = 0;
    for (uint16_t s = 0; s < STRIPES; s++) {
        for (uint8_t f = 0; f < LRC_FRAGMENTS; f++) {
            bool same_home = memcmp(&was->homes[s][f], &now->homes[s][f], sizeof(lrc_home)) == 0;
            bool same_lease = memcmp(&was->leases[s][f], &now->leases[s][f], sizeof(lrc_lease)) == 0;
            if (same_home && same_lease) continue;
            rows[count++] = (lrc_change){.stripe = s, .fragment = f, .was_leased = was->is_leased[s][f], .is_leased = now->is_leased[s][f],
                                         .home_before = was->homes[s][f], .home_after = now->homes[s][f],
                                         .lease_before = was->leases[s][f], .lease_after = now->leases[s][f]};
        }
    }
    return count;
}

static bool is_unwritten(const void *bytes, size_t size) {
    const uint8_t *byte = bytes;
    for (size_t i = 0; i < size; i++)
        if (byte[i] != 0xa5) return false;
    return true;
}

// Makes a call that changes this many fragments: without room, with a row less than it needs, and with as many. Its rows are what
// differs between the looks before it and after it.
static lrc_reply change(uint8_t session, lrc_command command, size_t wanted) {
    static lrc_change rows[STRIPES * LRC_FRAGMENTS + 1], right[STRIPES * LRC_FRAGMENTS];
    static homes_and_leases was, now;
    lrc_entry entry, kept;
    size_t count = 999, counted = count_of();
    uint32_t status;
    memset(&entry, 0xa5, sizeof entry), memset(rows, 0xa5, sizeof rows);
    look_at_fragments(&was);
    for (size_t room = 0; room < wanted; room += wanted > 1 ? wanted - 1 : 1) {
        STATUS(status, lrc_embed_call_changes(&handle, session, &command, &entry, room ? rows : 0, room, &count));
        WANT(status == LRC_SHORT && count == wanted && is_as_before());
        WANT(is_unwritten(&entry, sizeof entry) && is_unwritten(rows, sizeof rows));
    }
    STATUS(status, lrc_embed_call_changes(&handle, session, &command, &entry, wanted ? rows : 0, wanted, &count));
    WANT(status == LRC_DONE && count == wanted && count_of() == counted + 1);
    look_at_fragments(&now);
    WANT(rows_between(&was, &now, right) == wanted && memcmp(rows, right, wanted * sizeof *rows) == 0);
    WANT(is_unwritten(&rows[wanted], sizeof rows - wanted * sizeof *rows));
    WANT(lrc_embed_entry(&handle, counted, &kept) == LRC_DONE && memcmp(&entry, &kept, sizeof entry) == 0);
    return entry.reply;
}

#define CHANGE(session, wanted, ...) change(session, (lrc_command){__VA_ARGS__}, wanted)

static void changes_of_closed(void) {
    lrc_command command = {.kind = LRC_NEXT};
    lrc_entry entry;
    lrc_change row;
    size_t count = 99;
    memset(&entry, 0xa5, sizeof entry), memset(&row, 0xa5, sizeof row);
    WANT(lrc_embed_call_changes(&handle, 1, &command, &entry, &row, 1, &count) == LRC_IS_CLOSED);
    WANT(lrc_embed_call_changes(&handle, 1, &command, &entry, 0, 0, &count) == LRC_IS_CLOSED);
    WANT(lrc_embed_call_changes(&handle, 9, &command, &entry, &row, 1, &count) == LRC_OUT_OF_RANGE);
    WANT(is_unwritten(&entry, sizeof entry) && is_unwritten(&row, sizeof row) && count == 99);
}

// A stripe is placed, loses fragments, is repaired and dropped.
static void calls_with_changes(void) {
    WANT(lrc_embed_close(&handle) == LRC_DONE);
    open_twenty();
    WANT(CHANGE(1, 16, .kind = LRC_PLACE, .stripe = 1).kind == LRC_PLACED);
    WANT(is_refused(CHANGE(1, 0, .kind = LRC_PLACE, .stripe = 1), LRC_STRIPE_EXISTS, 0));
    WANT(CHANGE(1, 0, .kind = LRC_NEXT).kind == LRC_IDLE);
    WANT(CHANGE(1, 0, .kind = LRC_DOWN, .node = 5).kind == LRC_CHANGED && CHANGE(1, 0, .kind = LRC_UP, .node = 5).kind == LRC_CHANGED);
    WANT(CHANGE(1, 0, .kind = LRC_UPGRADE, .domain = 1).kind == LRC_CHANGED);
    WANT(CHANGE(1, 0, .kind = LRC_UPGRADED, .domain = 1).kind == LRC_CHANGED);
    WANT(CHANGE(1, 1, .kind = LRC_FAIL, .node = 3).kind == LRC_CHANGED);
    // the lease ends by the third tick
    WANT(CHANGE(2, 1, .kind = LRC_LEASE, .stripe = 1, .fragment = 3).kind == LRC_GRANTED);
    WANT(CHANGE(1, 0, .kind = LRC_TICK).ended == 0 && CHANGE(1, 0, .kind = LRC_TICK).ended == 0);
    WANT(CHANGE(1, 1, .kind = LRC_TICK).ended == 1 && CHANGE(1, 0, .kind = LRC_TICK).ended == 0);
    // it is given back, taken back, and used
    WANT(CHANGE(2, 1, .kind = LRC_NEXT).lease.epoch == 2);
    WANT(is_refused(CHANGE(3, 0, .kind = LRC_ABANDON, .stripe = 1, .fragment = 3, .epoch = 2), LRC_NOT_HOLDER, 2));
    WANT(CHANGE(2, 1, .kind = LRC_ABANDON, .stripe = 1, .fragment = 3, .epoch = 2).kind == LRC_ENDED);
    WANT(CHANGE(2, 1, .kind = LRC_LEASE, .stripe = 1, .fragment = 3).lease.epoch == 3);
    WANT(CHANGE(1, 1, .kind = LRC_REVOKE, .stripe = 1, .fragment = 3).kind == LRC_ENDED);
    WANT(CHANGE(2, 1, .kind = LRC_NEXT).lease.epoch == 4);
    WANT(CHANGE(2, 1, .kind = LRC_REPORT, .stripe = 1, .fragment = 3, .epoch = 4).kind == LRC_ENDED);
    // a lease is for a move, and ends with the home; another one with its target
    WANT(CHANGE(1, 0, .kind = LRC_DRAIN, .node = 0).kind == LRC_CHANGED);
    WANT(CHANGE(2, 1, .kind = LRC_LEASE, .stripe = 1, .fragment = 0).repair == LRC_MOVE);
    WANT(CHANGE(1, 1, .kind = LRC_FAIL, .node = 0).kind == LRC_CHANGED);
    lrc_reply granted = CHANGE(2, 1, .kind = LRC_NEXT);
    WANT(granted.kind == LRC_GRANTED && granted.lease.fragment == 0);
    WANT(CHANGE(1, 1, .kind = LRC_FAIL, .node = granted.lease.target.node).kind == LRC_CHANGED);
    WANT(CHANGE(1, 0, .kind = LRC_JOIN, .node = 0).kind == LRC_CHANGED);
    // a narrow stripe has ten fragments; one that is dropped has fifteen homes and a lease
    WANT(CHANGE(1, 10, .kind = LRC_PLACE6, .stripe = 2).kind == LRC_PLACED6);
    WANT(CHANGE(1, 10, .kind = LRC_DROP, .stripe = 2).kind == LRC_DROPPED);
    WANT(CHANGE(2, 1, .kind = LRC_NEXT).kind == LRC_GRANTED && CHANGE(1, 16, .kind = LRC_DROP, .stripe = 1).kind == LRC_DROPPED);
    const struct {
        uint8_t session;
        lrc_command command;
    } others[] = {
        {0, {.kind = LRC_TICK}},
        {LRC_SESSIONS + 1, {.kind = LRC_TICK}},
        {1, {.kind = 0}},
        {1, {.kind = LRC_PLACE6 + 1}},
        {1, {.kind = LRC_DROP, .stripe = LRC_STRIPES}},
        {1, {.kind = LRC_LEASE, .fragment = LRC_FRAGMENTS}},
    };
    lrc_entry entry;
    lrc_change row;
    size_t count = 99;
    memset(&entry, 0xa5, sizeof entry), memset(&row, 0xa5, sizeof row);
    look(&before);
    for (size_t i = 0; i < sizeof others / sizeof *others; i++)
        WANT(lrc_embed_call_changes(&handle, others[i].session, &others[i].command, &entry, &row, 1, &count) == LRC_OUT_OF_RANGE);
    WANT(is_as_before() && is_unwritten(&entry, sizeof entry) && is_unwritten(&row, sizeof row) && count == 99);
}
