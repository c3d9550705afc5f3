// Calls that are made one after the other by one call, and the words and fields of commands: a part of tests/library/embed.c,
// which includes it behind what it needs.

// What a call and what is behind it are before they are made: no bytes of an entry.
static lrc_entry asked_of(uint8_t session, lrc_command command) {
    lrc_entry entry;
    memset(&entry, 0xa5, sizeof entry);
    entry.session = session, entry.command = command;
    return entry;
}

// Makes calls, of which the one at `stop` can't be made, for this reason. Where memory is refused, what was made stays, the next
// call has changed nothing, and it is made again with those behind it.
static void make_some(lrc_entry *entries, size_t count, size_t stop, uint32_t reason) {
    size_t done = 0, made, counted = count_of();
    static lrc_entry given[ENTRIES];
    memcpy(given, entries, count * sizeof *entries);
    for (int tries = 0;; tries++) {
        made = 99;
        uint32_t status = lrc_embed_calls(&handle, entries + done, count - done, &made);
        WANT(made <= count - done && count_of() == counted + done + made);
        done += made;
        WANT(memcmp(&entries[done], &given[done], (count - done) * sizeof *entries) == 0);
        if (status != LRC_OUT_OF_MEMORY) {
            WANT(status == reason && done == stop);
            break;
        }
        WANT(done < stop);
        if (tries > 0 && made == 0) give_up();
    }
    for (size_t i = 0; i < stop; i++) {
        lrc_entry kept;
        WANT(lrc_embed_entry(&handle, counted + i, &kept) == LRC_DONE && memcmp(&kept, &entries[i], sizeof kept) == 0);
        WANT(kept.session == given[i].session && kept.command.kind == given[i].command.kind && kept.reserved[0] == 0);
    }
}

static void batches_of_closed(void) {
    lrc_entry entry = {.session = 9}, given = entry;
    size_t made = 99;
    WANT(lrc_embed_calls(&handle, &entry, 1, &made) == LRC_IS_CLOSED && made == 99);
    WANT(lrc_embed_calls(&handle, 0, 0, &made) == LRC_IS_CLOSED && made == 99);
    WANT(memcmp(&entry, &given, sizeof entry) == 0);
}

// A book of twenty nodes in which stripe 1 is placed, loses fragment 3, and gets it back, by one call.
static void batches(void) {
    lrc_entry entries[] = {
        asked_of(1, (lrc_command){.kind = LRC_PLACE, .stripe = 1, .epoch = 7, .reserved = {7}}),
        asked_of(2, (lrc_command){.kind = LRC_FAIL, .node = 3}),
        asked_of(8, (lrc_command){.kind = LRC_NEXT, .stripe = 9999}),
        asked_of(8, (lrc_command){.kind = LRC_REPORT, .stripe = 1, .fragment = 3, .epoch = 2}),
        asked_of(8, (lrc_command){.kind = LRC_REPORT, .stripe = 1, .fragment = 3, .epoch = 1}),
        asked_of(8, (lrc_command){.kind = LRC_NEXT}),
    };
    enum { COUNT = sizeof entries / sizeof *entries };
    lrc_entry wrong[3];
    size_t made = 99;
    WANT(lrc_embed_close(&handle) == LRC_DONE);
    open_twenty();
    WANT(lrc_embed_calls(&handle, 0, 0, &made) == LRC_DONE && made == 0 && count_of() == 0);
    make_some(entries, COUNT, COUNT, LRC_DONE);
    WANT(entries[0].reply.kind == LRC_PLACED && entries[0].command.epoch == 0 && entries[0].command.reserved[0] == 0);
    WANT(entries[1].reply.kind == LRC_CHANGED && entries[2].reply.kind == LRC_GRANTED && entries[2].command.stripe == 0);
    WANT(entries[2].reply.lease.holder == 8 && entries[2].reply.lease.fragment == 3);
    WANT(is_refused(entries[3].reply, LRC_STALE, 0) && entries[4].reply.kind == LRC_ENDED && entries[5].reply.kind == LRC_IDLE);
    // a call that can't be made stands behind two that are, at the start, and alone
    const struct {
        uint8_t session;
        lrc_command command;
    } others[] = {
        {0, {.kind = LRC_TICK}},
        {LRC_SESSIONS + 1, {.kind = LRC_TICK}},
        {1, {.kind = 0}},
        {1, {.kind = LRC_PLACE6 + 1}},
        {1, {.kind = LRC_DROP, .stripe = LRC_STRIPES}},
        {1, {.kind = LRC_LEASE, .fragment = LRC_FRAGMENTS}},
    };
    for (size_t i = 0; i < sizeof others / sizeof *others; i++) {
        for (size_t at = 0; at < 3; at++) {
            for (size_t j = 0; j < 3; j++) wrong[j] = asked_of(3, (lrc_command){.kind = LRC_TICK});
            wrong[at] = asked_of(others[i].session, others[i].command);
            make_some(wrong, 3, at, LRC_OUT_OF_RANGE);
            WANT(at == 0 || wrong[at - 1].reply.ended == 0);
        }
    }
    uint32_t clock = 99;
    WANT(lrc_embed_clock(&handle, &clock) == LRC_DONE && clock == 18);
}

static uint32_t command_name(uint32_t kind, uint8_t *text, size_t room, size_t *length) {
    return lrc_embed_command_name((uint8_t)kind, text, room, length);
}

static uint32_t command_fields(uint32_t kind, uint8_t *fields, size_t room, size_t *count) {
    return lrc_embed_command_fields((uint8_t)kind, fields, room, count);
}

// By the kind of a command: its word, and its fields as the characters 1 to 5.
static void forms(void) {
    static const struct {
        const char *word, *fields;
    } forms[] = {
        {"place", "\1"},      {"drop", "\1"},   {"lease", "\1\2"}, {"next", ""},     {"done", "\1\2\3"}, {"abandon", "\1\2\3"},
        {"revoke", "\1\2"},   {"fail", "\4"},   {"down", "\4"},    {"up", "\4"},     {"drain", "\4"},    {"undrain", "\4"},
        {"retire", "\4"},     {"join", "\4"},   {"upgrade", "\5"}, {"upgraded", "\5"}, {"tick", ""},     {"place6", "\1"},
    };
    for (uint32_t kind = 1; kind <= LRC_PLACE6; kind++) {
        uint8_t fields[3] = {9, 9, 9};
        size_t count = 99;
        const char *wanted = forms[kind - 1].fields;
        has_name(command_name, kind, forms[kind - 1].word);
        if (*wanted) {
            has_name(command_fields, kind, wanted);
        } else {
            WANT(lrc_embed_command_fields((uint8_t)kind, 0, 0, &count) == LRC_DONE && count == 0);
            WANT(lrc_embed_command_fields((uint8_t)kind, fields, 3, &count) == LRC_DONE && count == 0 && fields[0] == 9);
        }
    }
    for (uint32_t kind = LRC_PLACE6 + 1; kind != 1; kind = (kind + 1) % 256)
        has_name(command_name, kind, 0), has_name(command_fields, kind, 0);
}
