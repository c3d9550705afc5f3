// The texts of a book and of its commands, and the calls that return their entry: a part of tests/library/embed.c, which
// includes it behind what it needs.

// A text that a call writes has to be this one: with room for it and no more, with one byte less, and with more.
#define TEXT(wanted, CALL)                                                                                                       \
    do {                                                                                                                         \
        static uint8_t text[4096];                                                                                               \
        size_t length = 99, whole = strlen(wanted), room = whole - 1;                                                            \
        uint32_t status;                                                                                                         \
        memset(text, 9, sizeof text);                                                                                            \
        STATUS(status, CALL);                                                                                                    \
        WANT(status == LRC_SHORT && length == whole && text[0] == 9);                                                            \
        for (int more = 0; more < 2; more++) {                                                                                   \
            room = more ? sizeof text : whole, length = 99;                                                                      \
            memset(text, 9, sizeof text);                                                                                        \
            STATUS(status, CALL);                                                                                                \
            WANT(status == LRC_DONE && length == whole && memcmp(text, wanted, whole) == 0 && text[whole] == 9);                 \
        }                                                                                                                        \
    } while (0)

// Room for nothing, by a null pointer: what a text would take is told. So is no node, and the outage of none.
static void texts_without_room(size_t status_length, size_t line_length) {
    static const char *const none_stop = "stripe,code,level_before,margin_before,level_after,margin_after,missing_after,"
                                         "missing_fragments_after,leases_ended,harmed\n1,wide,risk,2,risk,2,0x0008,3,0,no\n";
    const lrc_command command = {.kind = LRC_REPORT, .stripe = 1, .fragment = 3, .epoch = 10};
    const uint16_t hit = 3;
    uint8_t is_safe = 99;
    size_t length = 99;
    uint32_t status;
    STATUS(status, lrc_embed_show(&handle, LRC_SHOW_STATUS, 0, 0, &length));
    WANT(status == LRC_SHORT && length == status_length);
    STATUS(status, lrc_embed_reply_line(&handle, 0, 0, 0, &length));
    WANT(status == LRC_SHORT && length == line_length);
    STATUS(status, lrc_embed_command_line(&command, 0, 0, &length));
    WANT(status == LRC_SHORT && length == strlen("done 1 3 10"));
    STATUS(status, lrc_embed_forecast_table(&handle, LRC_STOP, &hit, 1, 0, 0, &length, &is_safe));
    WANT(status == LRC_SHORT && length == strlen(none_stop) && is_safe == 1); // (node 3 is gone already)
    is_safe = 99;
    STATUS(status, lrc_embed_forecast_table(&handle, LRC_STOP, 0, 0, 0, 0, &length, &is_safe));
    WANT(status == LRC_SHORT && length == strlen(none_stop) && is_safe == 1);
    TEXT(none_stop, lrc_embed_forecast_table(&handle, LRC_STOP, 0, 0, text, room, &length, &is_safe));
    WANT(is_safe == 1);
    length = 99, is_safe = 99;
    WANT(lrc_embed_show(&handle, 0, 0, 0, &length) == LRC_OUT_OF_RANGE);
    WANT(lrc_embed_reply_line(&handle, 3, 0, 0, &length) == LRC_UNKNOWN);
    WANT(lrc_embed_command_line(&(lrc_command){.kind = 0}, 0, 0, &length) == LRC_OUT_OF_RANGE);
    WANT(lrc_embed_forecast_table(&handle, 0, 0, 0, 0, 0, &length, &is_safe) == LRC_OUT_OF_RANGE);
    WANT(length == 99 && is_safe == 99);
}

static void texts_of_closed(void) {
    lrc_command command = {.kind = LRC_NEXT};
    lrc_entry entry = {.session = 99};
    uint8_t text[2] = {9, 9}, is_safe = 99;
    size_t length = 99;
    const uint16_t none = 0;
    WANT(lrc_embed_call_entry(&handle, 1, &command, &entry) == LRC_IS_CLOSED);
    WANT(lrc_embed_call_entry(&handle, 9, &command, &entry) == LRC_OUT_OF_RANGE);
    WANT(lrc_embed_peek_entry(&handle, 1, &command, &entry) == LRC_IS_CLOSED);
    WANT(lrc_embed_peek_entry(&handle, 0, &command, &entry) == LRC_OUT_OF_RANGE);
    WANT(lrc_embed_show(&handle, LRC_SHOW_STATUS, text, 2, &length) == LRC_IS_CLOSED);
    WANT(lrc_embed_show(&handle, 0, text, 2, &length) == LRC_OUT_OF_RANGE);
    WANT(lrc_embed_forecast_table(&handle, LRC_LOSE, &none, 1, text, 2, &length, &is_safe) == LRC_IS_CLOSED);
    WANT(lrc_embed_forecast_table(&handle, 3, &none, 1, text, 2, &length, &is_safe) == LRC_OUT_OF_RANGE);
    WANT(lrc_embed_reply_line(&handle, 0, text, 2, &length) == LRC_IS_CLOSED);
    WANT(lrc_embed_show(&handle, LRC_SHOW_STATUS, 0, 0, &length) == LRC_IS_CLOSED);
    WANT(lrc_embed_forecast_table(&handle, LRC_LOSE, 0, 0, 0, 0, &length, &is_safe) == LRC_IS_CLOSED);
    WANT(lrc_embed_reply_line(&handle, 0, 0, 0, &length) == LRC_IS_CLOSED);
    WANT(entry.session == 99 && text[0] == 9 && length == 99 && is_safe == 99);
}

// The line of each kind of command, and the command that it is read as.
static void lines(void) {
    static const struct {
        const char *line;
        lrc_command command;
    } commands[] = {
        {"place 4095", {.kind = LRC_PLACE, .stripe = 4095}},
        {"place6 0", {.kind = LRC_PLACE6, .stripe = 0}},
        {"drop 7", {.kind = LRC_DROP, .stripe = 7}},
        {"lease 10 15", {.kind = LRC_LEASE, .stripe = 10, .fragment = 15}},
        {"next", {.kind = LRC_NEXT}},
        {"done 4095 15 4294967295", {.kind = LRC_REPORT, .stripe = 4095, .fragment = 15, .epoch = 4294967295}},
        {"abandon 1 2 3", {.kind = LRC_ABANDON, .stripe = 1, .fragment = 2, .epoch = 3}},
        {"revoke 100 9", {.kind = LRC_REVOKE, .stripe = 100, .fragment = 9}},
        {"fail 65535", {.kind = LRC_FAIL, .node = 65535}},
        {"down 0", {.kind = LRC_DOWN}},
        {"up 1", {.kind = LRC_UP, .node = 1}},
        {"drain 22", {.kind = LRC_DRAIN, .node = 22}},
        {"undrain 333", {.kind = LRC_UNDRAIN, .node = 333}},
        {"retire 4444", {.kind = LRC_RETIRE, .node = 4444}},
        {"join 5", {.kind = LRC_JOIN, .node = 5}},
        {"upgrade 255", {.kind = LRC_UPGRADE, .domain = 255}},
        {"upgraded 10", {.kind = LRC_UPGRADED, .domain = 10}},
        {"tick", {.kind = LRC_TICK}},
    };
    static const struct {
        const char *line;
        uint32_t status, cause;
    } others[] = {
        {"", LRC_UNKNOWN, 99},
        {"# place 1", LRC_UNKNOWN, 99},
        {"#\nplace 1", LRC_UNKNOWN, 99},
        {" place 1", LRC_BAD_LINE, LRC_LINE_UNKNOWN_WORD},
        {"Place 1", LRC_BAD_LINE, LRC_LINE_UNKNOWN_WORD},
        {"next\n", LRC_BAD_LINE, LRC_LINE_UNKNOWN_WORD},
        {"tick\ntick", LRC_BAD_LINE, LRC_LINE_UNKNOWN_WORD},
        {"\n", LRC_BAD_LINE, LRC_LINE_UNKNOWN_WORD},
        {"place", LRC_BAD_LINE, LRC_LINE_WORD_COUNT},
        {"next 1", LRC_BAD_LINE, LRC_LINE_WORD_COUNT},
        {"place 1\n", LRC_BAD_LINE, LRC_LINE_NOT_A_NUMBER},
        {"place 1\r", LRC_BAD_LINE, LRC_LINE_NOT_A_NUMBER},
        {"place 01", LRC_BAD_LINE, LRC_LINE_NOT_A_NUMBER},
        {"done 1 16 -1", LRC_BAD_LINE, LRC_LINE_OUT_OF_RANGE},
        {"done 4096 x 1", LRC_BAD_LINE, LRC_LINE_OUT_OF_RANGE},
        {"done 1 2 4294967296", LRC_BAD_LINE, LRC_LINE_OUT_OF_RANGE},
        {"upgrade 256", LRC_BAD_LINE, LRC_LINE_OUT_OF_RANGE},
    };
    for (size_t i = 0; i < sizeof commands / sizeof *commands; i++) {
        lrc_command command = {.kind = 99, .reserved = {1, 2, 3, 4, 5}};
        uint32_t cause = 99;
        const char *line = commands[i].line;
        WANT(lrc_embed_read_command((const uint8_t *)line, strlen(line), &command, &cause) == LRC_DONE && cause == 99);
        WANT(memcmp(&command, &commands[i].command, sizeof command) == 0);
        // (what its kind does not use may be anything)
        command.reserved[4] = 255;
        TEXT(line, lrc_embed_command_line(&command, text, room, &length));
    }
    for (size_t i = 0; i < sizeof others / sizeof *others; i++) {
        lrc_command command = {.kind = 99};
        uint32_t cause = 99;
        const char *line = others[i].line;
        WANT(lrc_embed_read_command((const uint8_t *)line, strlen(line), &command, &cause) == others[i].status);
        WANT(cause == others[i].cause && command.kind == 99);
    }
    static uint8_t longest[1025];
    lrc_command command = {.kind = 99};
    uint32_t cause = 99;
    memset(longest, '#', sizeof longest);
    WANT(lrc_embed_read_command(longest, 1024, &command, &cause) == LRC_UNKNOWN && cause == 99);
    WANT(lrc_embed_read_command(longest, 1025, &command, &cause) == LRC_BAD_LINE && cause == LRC_LINE_TOO_LONG);
    WANT(lrc_embed_read_command(0, 0, &command, &cause) == LRC_UNKNOWN && cause == LRC_LINE_TOO_LONG && command.kind == 99);
    uint8_t text[32] = {9};
    size_t length = 99;
    for (unsigned kind = LRC_PLACE6 + 1; kind != 1; kind = (kind + 1) % 256) {
        command.kind = (uint8_t)kind;
        WANT(lrc_embed_command_line(&command, text, sizeof text, &length) == LRC_OUT_OF_RANGE);
    }
    command = (lrc_command){.kind = LRC_PLACE, .stripe = LRC_STRIPES};
    WANT(lrc_embed_command_line(&command, text, sizeof text, &length) == LRC_OUT_OF_RANGE && length == 99 && text[0] == 9);
}

// The entry of a call is that of the history, and a peek returns it before.
static void entries_of_calls(void) {
    lrc_command command = {.kind = LRC_PLACE, .stripe = 2, .epoch = 7, .node = 7, .reserved = {7}};
    lrc_entry peeked, made, kept;
    uint32_t status;
    memset(&peeked, 9, sizeof peeked), memset(&made, 8, sizeof made);
    for (int i = 0; i < 2; i++) { // placed, and then refused
        unsigned long before_it = requests;
        WANT(lrc_embed_peek_entry(&handle, 3, &command, &peeked) == LRC_DONE && requests == before_it);
        size_t count = count_of();
        STATUS(status, lrc_embed_call_entry(&handle, 3, &command, &made));
        WANT(status == LRC_DONE && count_of() == count + 1);
        WANT(lrc_embed_entry(&handle, count, &kept) == LRC_DONE);
        WANT(memcmp(&made, &kept, sizeof made) == 0 && memcmp(&peeked, &kept, sizeof peeked) == 0);
        WANT(made.session == 3 && made.command.epoch == 0 && made.command.node == 0 && made.command.reserved[0] == 0);
    }
    WANT(made.reply.kind == LRC_REFUSED && made.reply.refusal == LRC_STRIPE_EXISTS);
    memset(&made, 8, sizeof made);
    command.stripe = LRC_STRIPES;
    kept = made;
    WANT(lrc_embed_call_entry(&handle, 3, &command, &made) == LRC_OUT_OF_RANGE);
    WANT(lrc_embed_peek_entry(&handle, 3, &command, &made) == LRC_OUT_OF_RANGE);
    command.stripe = 2;
    WANT(lrc_embed_call_entry(&handle, 0, &command, &made) == LRC_OUT_OF_RANGE);
    WANT(lrc_embed_peek_entry(&handle, LRC_SESSIONS + 1, &command, &made) == LRC_OUT_OF_RANGE);
    WANT(memcmp(&made, &kept, sizeof made) == 0);
}

static const char *status_of_one =
    "name,value\nstripes,1\nwhole,0\nat_risk_margin_2,1\nat_risk_margin_1,0\nat_risk_margin_0,0\nunavailable,0\nlost,0\n"
    "missing_fragments,1\nhomeless_fragments,1\nleases,1\nheld_seats,16\nslots,80\nnodes_active,19\nnodes_draining,0\n"
    "nodes_gone,1\nnodes_down,0\nnodes_online,19\nupgrading,none\nclock,0\nentries,3\n";
static const char *stripes_of_one =
    "stripe,code,level,margin,missing,missing_fragments,homeless,homeless_fragments,home_0,home_1,home_2,home_3,home_4,home_5,"
    "home_6,home_7,home_8,home_9,home_10,home_11,home_12,home_13,home_14,home_15\n"
    "1,wide,risk,2,0x0008,3,0x0008,3,0:0,1:0,2:0,-,4:0,5:0,6:0,7:0,8:0,9:0,10:0,11:0,16:0,12:0,13:0,14:0\n";

// A book with one stripe, of which a fragment is leased: each text, and each status.
static void texts_of_book(void) {
    uint8_t text[2] = {9, 9}, is_safe = 99;
    size_t length = 99;
    const uint16_t hit[] = {0, 1, 2, 4}, none = 99;
    uint32_t status;
    WANT(lrc_embed_close(&handle) == LRC_DONE);
    open_twenty();
    WANT(MAKE(1, .kind = LRC_PLACE, .stripe = 1).kind == LRC_PLACED);
    WANT(MAKE(1, .kind = LRC_FAIL, .node = 3).kind == LRC_CHANGED);
    WANT(MAKE(2, .kind = LRC_LEASE, .stripe = 1, .fragment = 3).lease.epoch == 1);
    TEXT(status_of_one, lrc_embed_show(&handle, LRC_SHOW_STATUS, text, room, &length));
    TEXT(stripes_of_one, lrc_embed_show(&handle, LRC_SHOW_STRIPES, text, room, &length));
    TEXT("stripe,fragment,holder,target,epoch,expiry\n1,3,2,17:0,1,3\n",
         lrc_embed_show(&handle, LRC_SHOW_LEASES, text, room, &length));
    TEXT("stripe,fragment,kind,sources,reads,standing,holder,epoch\n1,3,local,0 1 2 4 5 12,6,leased,2,1\n",
         lrc_embed_show(&handle, LRC_SHOW_WORK, text, room, &length));
    TEXT("1 placed 0:0 1:0 2:0 3:0 4:0 5:0 6:0 7:0 8:0 9:0 10:0 11:0 16:0 12:0 13:0 14:0\n",
         lrc_embed_reply_line(&handle, 0, text, room, &length));
    TEXT("2 changed\n", lrc_embed_reply_line(&handle, 1, text, room, &length));
    TEXT("3 granted 1 3 17:0 epoch 1 local 0 1 2 4 5 12\n", lrc_embed_reply_line(&handle, 2, text, room, &length));
    TEXT("stripe,code,level_before,margin_before,level_after,margin_after,missing_after,missing_fragments_after,leases_ended,"
         "harmed\n1,wide,risk,2,risk,0,0x000b,0 1 3,0,no\n",
         lrc_embed_forecast_table(&handle, LRC_LOSE, hit, 2, text, room, &length, &is_safe));
    WANT(is_safe == 1);
    TEXT("stripe,code,level_before,margin_before,level_after,margin_after,missing_after,missing_fragments_after,leases_ended,"
         "harmed\n1,wide,risk,2,lost,-,0x001f,0 1 2 3 4,0,yes\n",
         lrc_embed_forecast_table(&handle, LRC_LOSE, hit, 4, text, room, &length, &is_safe));
    WANT(is_safe == 0);
    is_safe = 99;
    STATUS(status, lrc_embed_forecast_table(&handle, LRC_LOSE, hit, 4, text, 2, &length, &is_safe));
    WANT(status == LRC_SHORT && is_safe == 0);
    texts_without_room(strlen(status_of_one), strlen("1 placed 0:0 1:0 2:0 3:0 4:0 5:0 6:0 7:0 8:0 9:0 10:0 11:0 16:0 12:0 13:0 14:0\n"));
    is_safe = 99, length = 99;
    WANT(lrc_embed_show(&handle, 0, text, 2, &length) == LRC_OUT_OF_RANGE);
    WANT(lrc_embed_show(&handle, LRC_SHOW_CAPACITY + 1, text, 2, &length) == LRC_OUT_OF_RANGE);
    WANT(lrc_embed_show(&handle, 255, text, 2, &length) == LRC_OUT_OF_RANGE);
    WANT(lrc_embed_reply_line(&handle, 3, text, 2, &length) == LRC_UNKNOWN);
    WANT(lrc_embed_reply_line(&handle, SIZE_MAX, text, 2, &length) == LRC_UNKNOWN);
    WANT(lrc_embed_forecast_table(&handle, LRC_STOP, &none, 1, text, 2, &length, &is_safe) == LRC_UNKNOWN);
    WANT(lrc_embed_forecast_table(&handle, 0, &none, 1, text, 2, &length, &is_safe) == LRC_OUT_OF_RANGE);
    WANT(length == 99 && is_safe == 99 && text[0] == 9);
    entries_of_calls();
    forget();
    WANT(lrc_embed_reply_line(&handle, 0, text, 2, &length) == LRC_UNKNOWN);
    WANT(is_refused(MAKE(1, .kind = LRC_UP, .node = 2), LRC_WRONG_MODE, 0));
    TEXT("6 refused 105\n", lrc_embed_reply_line(&handle, 0, text, room, &length));
}

static uint32_t level_name(uint32_t kind, uint8_t *text, size_t room, size_t *length) {
    return lrc_embed_level_name((uint8_t)kind, text, room, length);
}

static uint32_t mode_name(uint32_t kind, uint8_t *text, size_t room, size_t *length) {
    return lrc_embed_mode_name((uint8_t)kind, text, room, length);
}

static uint32_t code_name(uint32_t code, uint8_t *text, size_t room, size_t *length) {
    return lrc_embed_code_name((uint8_t)code, text, room, length);
}

static uint32_t repair_name(uint32_t repair, uint8_t *text, size_t room, size_t *length) {
    return lrc_embed_repair_name((uint8_t)repair, text, room, length);
}

static void more_names(void) {
    static const char *const levels[] = {0, "whole", "risk", "unavailable", "lost", 0};
    static const char *const modes[] = {0, "active", "draining", "gone", 0};
    static const char *const codes[] = {0, "wide", "narrow", 0};
    static const char *const repairs[] = {0, "local", "global", "move", "local", 0};
    static const char *const causes[] = {0, "the first word is not a command", "the command takes another number of words",
                                         "an argument is not a number", "a number is out of its range",
                                         "the line has more than 1024 bytes", 0};
    for (uint32_t i = 0; i < 6; i++) has_name(level_name, i, levels[i]), has_name(repair_name, i, repairs[i]);
    for (uint32_t i = 0; i < 5; i++) has_name(mode_name, i, modes[i]);
    for (uint32_t i = 0; i < 4; i++) has_name(code_name, i, codes[i]);
    for (uint32_t i = 0; i < 7; i++) has_name(lrc_embed_line_words, i, causes[i]);
    has_name(level_name, 255, 0), has_name(mode_name, 255, 0), has_name(code_name, 255, 0), has_name(repair_name, 255, 0);
    for (uint32_t i = 17; i < 24; i++) has_name(lrc_embed_cause_words, i, 0);
    has_name(lrc_embed_cause_words, 0, 0), has_name(lrc_embed_cause_words, UINT32_MAX, 0);
    has_name(lrc_embed_cause_words, 16, "the lease ended already, or ends later than three ticks after the clock");
    for (uint32_t i = 0; i < 16; i++) has_name(lrc_embed_nodes_words, i, 0);
    has_name(lrc_embed_nodes_words, 22, 0), has_name(lrc_embed_nodes_words, UINT32_MAX, 0);
    has_name(lrc_embed_nodes_words, 16, "the topology is not TOML in UTF-8");
}
