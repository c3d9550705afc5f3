// The late worker of late_worker.c from C++, by classes that own a book, a published book and its viewers.
#include "lrc_embed.h"

#include <cstddef>
#include <cstdio>
#include <cstring>
#include <future>
#include <optional>
#include <stdexcept>
#include <string>
#include <utility>
#include <vector>

// The word for a number, by one of the functions that return words.
template <class Name, class Number> static std::string word_for(Name name, Number number) {
    std::uint8_t text[24];
    std::size_t length = 0;
    return name(number, text, sizeof text, &length) == LRC_DONE ? std::string(text, text + length) : "no word";
}

// The library is not that of the header: structs and calls may mean something else in it.
class OtherVersion : public std::runtime_error {
  public:
    OtherVersion()
        : std::runtime_error("the library has version " + std::to_string(lrc_embed_version()) +
                             " of its interface, and the header is for version " + std::to_string(LRC_EMBED_VERSION)) {}
};

// A status other than LRC_DONE, the position or line of the fault in the input, and the lrc_cause of LRC_INVALID_IMAGE.
class Fault : public std::runtime_error {
  public:
    Fault(const std::string &what, std::uint32_t status, std::size_t position = 0, std::uint32_t cause = 0)
        : std::runtime_error(what + ": " + word_for(lrc_embed_status_name, status)), status(status),
          position(position), cause(cause) {}
    const std::uint32_t status;
    const std::size_t position;
    const std::uint32_t cause;
};

// The words for the number of a refusal.
inline std::string refusal_name(std::uint8_t refusal) { return word_for(lrc_embed_refusal_name, refusal); }

// What `lrcman run` prints of a reply: at most 198 bytes.
inline std::string reply_text(const lrc_reply &reply) {
    std::uint8_t text[198];
    std::size_t length = 0;
    auto status = lrc_embed_reply_text(&reply, text, sizeof text, &length);
    if (status != LRC_DONE) throw Fault("reply_text", status);
    return std::string(text, text + length);
}

inline const std::uint8_t *bytes_of(const std::string &text) { return reinterpret_cast<const std::uint8_t *>(text.data()); }

// The bytes of a fragment; none where it is not there.
using Fragment = std::vector<std::uint8_t>;

inline std::vector<lrc_bytes> bytes_of(const std::vector<Fragment> &fragments) {
    std::vector<lrc_bytes> bytes;
    for (const auto &fragment : fragments) bytes.push_back({fragment.data(), fragment.size()});
    return bytes;
}

// The four parities of a stripe, of its data fragments in order.
inline std::vector<Fragment> encode(lrc_code code, const std::vector<Fragment> &data) {
    std::vector<Fragment> parities(4, Fragment(data.empty() ? 0 : data[0].size()));
    std::vector<lrc_buffer> buffers;
    for (auto &parity : parities) buffers.push_back({parity.data(), parity.size()});
    auto bytes = bytes_of(data);
    auto status = lrc_embed_encode(std::uint8_t(code), bytes.data(), bytes.size(), buffers.data(), buffers.size());
    if (status != LRC_DONE) throw Fault("encode", status);
    return parities;
}

// The fragment that a recipe rebuilds, of so many bytes. What is not read may be empty.
inline Fragment rebuild(const lrc_recipe &recipe, const std::vector<Fragment> &fragments, std::size_t length) {
    Fragment rebuilt(length);
    auto bytes = bytes_of(fragments);
    auto status = lrc_embed_rebuild(&recipe, bytes.data(), bytes.size(), rebuilt.data(), rebuilt.size());
    if (status != LRC_DONE) throw Fault("rebuild", status);
    return rebuilt;
}

// The version of the library's rules, which is kept with each log and each image.
inline std::uint32_t rules_version() { return lrc_embed_rules_version(); }

// What may be asked of a book, which changes nothing. Who derives from it owns the handle. A look is none where there is no such
// stripe, node or lease; a number out of range throws, with LRC_OUT_OF_RANGE.
class Looks {
  public:
    // The reply that a call would get now, and the entry that it would add.
    lrc_reply peek(std::uint8_t session, const lrc_command &command) {
        lrc_reply reply{};
        done("peek", lrc_embed_peek(at(), session, &command, &reply));
        return reply;
    }
    lrc_entry peek_entry(std::uint8_t session, const lrc_command &command) {
        lrc_entry entry{};
        done("peek_entry", lrc_embed_peek_entry(at(), session, &command, &entry));
        return entry;
    }
    std::size_t count() {
        std::size_t count = 0;
        done("count", lrc_embed_count(at(), &count));
        return count;
    }
    // The number of entries of the store before the history.
    std::uint64_t before() {
        std::uint64_t before = 0;
        done("before", lrc_embed_before(at(), &before));
        return before;
    }
    // How many ticks were made.
    std::uint32_t clock() {
        std::uint32_t clock = 0;
        done("clock", lrc_embed_clock(at(), &clock));
        return clock;
    }
    // The text of the image of the state.
    std::string image() { return text("image", lrc_embed_image); }
    // A table of the book, as `lrcman show` prints it.
    std::string show(lrc_view view) { return text("show", lrc_embed_show, std::uint8_t(view)); }
    lrc_entry entry(std::size_t index) {
        lrc_entry entry{};
        done("entry", lrc_embed_entry(at(), index, &entry));
        return entry;
    }
    // One stripe: its code (an lrc_code), its level, a bit for each missing fragment, and its homes.
    std::optional<std::uint8_t> code(std::uint16_t stripe) { return found<std::uint8_t>("code", lrc_embed_code, stripe); }
    std::optional<lrc_level> level(std::uint16_t stripe) { return found<lrc_level>("level", lrc_embed_level, stripe); }
    std::optional<std::uint16_t> missing(std::uint16_t stripe) {
        return found<std::uint16_t>("missing", lrc_embed_missing, stripe);
    }
    std::optional<lrc_homes> homes(std::uint16_t stripe) { return found<lrc_homes>("homes", lrc_embed_homes, stripe); }
    // The live lease of a fragment.
    std::optional<lrc_lease> lease(std::uint16_t stripe, std::uint8_t fragment) {
        return found<lrc_lease>("lease", lrc_embed_lease, stripe, fragment);
    }
    std::vector<lrc_risk> risk() {
        std::vector<lrc_risk> rows(LRC_STRIPES);
        std::size_t count = 0;
        done("risk", lrc_embed_risk(at(), rows.data(), rows.size(), &count));
        rows.resize(count);
        return rows;
    }
    // The first row of `risk`, without memory; none if all stripes are whole.
    std::optional<lrc_risk> first_risk() { return found<lrc_risk>("first_risk", lrc_embed_first_risk); }
    // How a fragment that needs a lease is rebuilt; none if it needs none.
    std::optional<lrc_repair_plan> repair(std::uint16_t stripe, std::uint8_t fragment) {
        return found<lrc_repair_plan>("repair", lrc_embed_repair, stripe, fragment);
    }
    // How the fragment of a live lease is rebuilt from what is not missing now; none if it has no live lease. It throws, with
    // LRC_UNDETERMINED, if what is not missing does not determine the fragment.
    std::optional<lrc_recipe> recipe(std::uint16_t stripe, std::uint8_t fragment) {
        return found<lrc_recipe>("recipe", lrc_embed_recipe, stripe, fragment);
    }
    // One node: its mode, whether it is down, and how many of its slots are held.
    std::optional<lrc_mode> mode(std::uint16_t node) { return found<lrc_mode>("mode", lrc_embed_mode, node); }
    std::optional<std::uint32_t> load(std::uint16_t node) { return found<std::uint32_t>("load", lrc_embed_load, node); }
    std::optional<bool> is_down(std::uint16_t node) {
        auto is_down = found<std::uint8_t>("is_down", lrc_embed_is_down, node);
        return is_down ? std::optional<bool>(*is_down == 1) : std::nullopt;
    }
    std::optional<std::uint8_t> upgrading() { return found<std::uint8_t>("upgrading", lrc_embed_upgrading); }

    // The rows of walks, from the first one on.
    std::vector<lrc_stripe> stripes() {
        return walk<lrc_stripe>("stripes", [&](auto &rows, auto last, auto to, auto room, auto count) {
            return lrc_embed_stripes(at(), last ? std::uint16_t(rows.back().stripe + 1) : 0, to, room, count);
        });
    }
    std::vector<lrc_node> nodes() {
        return walk<lrc_node>("nodes", [&](auto &rows, auto, auto to, auto room, auto count) {
            return lrc_embed_nodes(at(), rows.size(), to, room, count);
        });
    }
    std::vector<lrc_lease> leases() {
        return walk<lrc_lease>("leases", [&](auto &rows, auto last, auto to, auto room, auto count) {
            return lrc_embed_leases(at(), last ? rows.back().stripe : 0, behind(rows), to, room, count);
        });
    }
    std::vector<lrc_fragment> homes_on(std::uint16_t node) {
        return walk<lrc_fragment>("homes_on", [&](auto &rows, auto last, auto to, auto room, auto count) {
            return lrc_embed_homes_on(at(), node, last ? rows.back().stripe : 0, behind(rows), to, room, count);
        });
    }
    // The entries of the store from a place on, which is the number of those before it. It throws, with LRC_FORGOTTEN, where
    // the book has forgotten some of them.
    std::vector<lrc_entry> entries(std::uint64_t place) {
        return walk<lrc_entry>("entries", [&](auto &rows, auto, auto to, auto room, auto count) {
            return lrc_embed_entries(at(), place + rows.size(), to, room, count);
        });
    }
    // All entries that the book has.
    std::vector<lrc_entry> entries() { return entries(before()); }

    // The stripes that would not be whole after an outage of these nodes, and whether none is harmed.
    std::pair<std::vector<lrc_outlook>, bool> forecast(lrc_outage outage, const std::vector<std::uint16_t> &nodes) {
        std::vector<lrc_outlook> rows(LRC_STRIPES);
        std::size_t count = 0;
        std::uint8_t is_safe = 0;
        static const std::uint16_t none = 0;
        done("forecast", lrc_embed_forecast(at(), outage, nodes.empty() ? &none : nodes.data(), nodes.size(), rows.data(),
                                            rows.size(), &count, &is_safe));
        rows.resize(count);
        return {rows, is_safe == 1};
    }

  protected:
    Looks() = default;
    ~Looks() = default;
    // The handle of the book.
    virtual lrc_handle *at() = 0;
    static void done(const char *what, std::uint32_t status) {
        if (status != LRC_DONE) throw Fault(what, status);
    }

  private:
    // The result of a look, if there is one.
    template <class T, class Look, class... Numbers>
    std::optional<T> found(const char *what, Look look, Numbers... numbers) {
        T result{};
        auto status = look(at(), numbers..., &result);
        if (status == LRC_UNKNOWN) return std::nullopt;
        done(what, status);
        return result;
    }
    // The text that a look writes.
    template <class Look, class... Numbers> std::string text(const char *what, Look look, Numbers... numbers) {
        std::string text;
        std::size_t length = 0;
        for (;;) {
            auto room = reinterpret_cast<std::uint8_t *>(text.data());
            auto status = look(at(), numbers..., room, text.size(), &length);
            if (status != LRC_SHORT) done(what, status);
            text.resize(length);
            if (status == LRC_DONE) return text;
        }
    }
    // All rows of a table, a buffer at a time. `next` is told whether there is a last row.
    template <class Row, class Next> std::vector<Row> walk(const char *what, Next next) {
        std::vector<Row> rows, more(256);
        std::size_t count = 0;
        do {
            done(what, next(rows, !rows.empty(), more.data(), more.size(), &count));
            rows.insert(rows.end(), more.begin(), more.begin() + std::ptrdiff_t(count));
        } while (count == more.size());
        return rows;
    }
    template <class Row> static std::uint8_t behind(const std::vector<Row> &rows) {
        return rows.empty() ? 0 : std::uint8_t(rows.back().fragment + 1);
    }
};

// A book. It may be moved and not copied, and one thread at a time may use it. It is made only by a library of the header's
// version.
class Book final : public Looks {
  public:
    explicit Book(const std::string &nodes) : Book() {
        std::size_t detail = 0;
        auto status = lrc_embed_open(&handle, bytes_of(nodes), nodes.size(), &detail);
        if (status != LRC_DONE) throw Fault("open", status, detail);
    }
    // A book that begins in an image, with an empty history.
    static Book from_image(const std::string &nodes, const std::string &image) {
        Book book;
        std::size_t detail = 0;
        std::uint32_t cause = 0;
        auto status = lrc_embed_open_image(&book.handle, bytes_of(nodes), nodes.size(), bytes_of(image), image.size(),
                                           &detail, &cause);
        if (status != LRC_DONE) throw Fault("open_image", status, detail, cause);
        return book;
    }
    Book(const std::string &nodes, const std::vector<lrc_entry> &log) : Book(nodes) {
        std::size_t position = 0;
        static const lrc_entry none{};
        auto entries = log.empty() ? &none : log.data();
        auto status = lrc_embed_replay(&handle, entries, log.size(), &position);
        if (status != LRC_DONE) throw Fault("replay", status, position);
    }
    Book(Book &&other) noexcept : handle(std::exchange(other.handle, LRC_CLOSED)) {}
    Book &operator=(Book &&other) noexcept {
        std::swap(handle, other.handle);
        return *this;
    }
    ~Book() { lrc_embed_close(&handle); }

    lrc_reply call(std::uint8_t session, const lrc_command &command) {
        lrc_reply reply{};
        done("call", lrc_embed_call(&handle, session, &command, &reply));
        return reply;
    }
    // Makes a call, and returns its entry, which a store saves.
    lrc_entry call_entry(std::uint8_t session, const lrc_command &command) {
        lrc_entry entry{};
        done("call_entry", lrc_embed_call_entry(&handle, session, &command, &entry));
        return entry;
    }
    // The same, with a row for each fragment whose home or live lease the call changed.
    std::pair<lrc_entry, std::vector<lrc_change>> call_changes(std::uint8_t session, const lrc_command &command) {
        lrc_entry entry{};
        std::vector<lrc_change> rows;
        std::size_t count = LRC_FRAGMENTS;
        for (;;) {
            rows.resize(count);
            auto status = lrc_embed_call_changes(&handle, session, &command, &entry, rows.data(), rows.size(), &count);
            if (status == LRC_SHORT) continue; // (nothing is made, and `count` rows are needed)
            done("call_changes", status);
            rows.resize(count);
            return {entry, rows};
        }
    }
    // Makes the calls of the sessions and commands of these entries, one after the other, and writes each entry there. It returns how
    // many are made and the status, which is done, or why the next call is not made; those before it stay.
    std::pair<std::size_t, std::uint32_t> calls(std::vector<lrc_entry> &entries) {
        std::size_t made = 0;
        static lrc_entry none{};
        auto status = lrc_embed_calls(&handle, entries.empty() ? &none : entries.data(), entries.size(), &made);
        if (status == LRC_IS_CLOSED) throw Fault("calls", status);
        return {made, status};
    }
    // A call, if the store has made `place` entries so far; else it throws, with LRC_MOVED.
    lrc_reply call_at(std::uint64_t place, std::uint8_t session, const lrc_command &command) {
        lrc_reply reply{};
        done("call_at", lrc_embed_call_at(&handle, place, session, &command, &reply));
        return reply;
    }
    // Forgets the entries, which the log has.
    void forget() { done("forget", lrc_embed_forget(&handle)); }

  private:
    friend class Published;
    lrc_handle *at() override { return &handle; }
    Book() {
        if (lrc_embed_version() != LRC_EMBED_VERSION) throw OtherVersion();
    }
    lrc_handle handle = LRC_CLOSED;
};

// A book that follows a published one when it is told to. One thread at a time may use it, beside those that use the published
// book and other viewers. It has looks, which write cache lines of its own, and no calls. It may outlive the published book.
class alignas(64) Viewer final : public Looks {
  public:
    Viewer(Viewer &&other) noexcept : pair(std::exchange(other.pair, LRC_NO_VIEWER)) {}
    Viewer &operator=(Viewer &&other) noexcept {
        std::swap(pair, other.pair);
        return *this;
    }
    ~Viewer() { lrc_embed_close_viewer(&pair); }

    // How many entries of the store its book follows from, and whether the other one is still published.
    struct Place {
        std::uint64_t entries;
        bool is_published;
    };
    // Makes the calls that it has not made yet. If it throws, with LRC_FULL or LRC_OUT_OF_MEMORY, it has made those before, and
    // goes on there; LRC_FULL asks for `forget` first.
    Place follow() {
        Place place{};
        std::uint8_t is_published = 0;
        done("follow", lrc_embed_follow(&pair, &place.entries, &is_published));
        place.is_published = is_published == 1;
        return place;
    }
    // Forgets the entries that it followed.
    void forget() { done("forget", lrc_embed_forget(at())); }

  private:
    friend class Published;
    Viewer(lrc_published &published, const std::string &nodes) {
        done("view", lrc_embed_view(&published, bytes_of(nodes), nodes.size(), &pair));
    }
    lrc_handle *at() override { return &pair.book; }
    lrc_viewer pair = LRC_NO_VIEWER;
};

// A book with viewers, which look beside its calls and take no lock. One thread at a time may use it, also to make a viewer.
class Published final : public Looks {
  public:
    // Takes the book out of the other one, which is closed then. If it throws, that one is as it was.
    explicit Published(Book &&book) { done("publish", lrc_embed_publish(book.at(), &pair)); }
    Published(Published &&other) noexcept : pair(std::exchange(other.pair, LRC_NOT_PUBLISHED)) {}
    Published &operator=(Published &&other) noexcept {
        std::swap(pair, other.pair);
        return *this;
    }
    ~Published() {
        lrc_handle handle = LRC_CLOSED;
        lrc_embed_unpublish(&pair, &handle);
        lrc_embed_close(&handle);
    }
    // Makes a call, which each viewer that follows after it makes too. LRC_FULL may also say that the feed has no room: then take the
    // book back and publish it again.
    lrc_reply call(std::uint8_t session, const lrc_command &command) {
        lrc_reply reply{};
        done("call_published", lrc_embed_call_published(&pair, session, &command, &reply));
        return reply;
    }
    // A viewer of the book as it is, over the text of its nodes; it throws, with LRC_DIFFERENT, if these are others.
    Viewer view(const std::string &nodes) { return Viewer(pair, nodes); }
    // Gives the book back, and is closed then. Its viewers keep their books, and are told.
    Book unpublish() {
        Book book;
        done("unpublish", lrc_embed_unpublish(&pair, book.at()));
        return book;
    }

  private:
    lrc_handle *at() override { return &pair.book; }
    lrc_published pair = LRC_NOT_PUBLISHED;
};

static lrc_command of_stripe(std::uint8_t kind, std::uint16_t stripe) {
    lrc_command command{};
    command.kind = kind;
    command.stripe = stripe;
    return command;
}

static lrc_command of_node(std::uint8_t kind, std::uint16_t node) {
    lrc_command command{};
    command.kind = kind;
    command.node = node;
    return command;
}

static lrc_command of_fragment(std::uint8_t kind, std::uint16_t stripe, std::uint8_t fragment, std::uint32_t epoch = 0) {
    lrc_command command = of_stripe(kind, stripe);
    command.fragment = fragment;
    command.epoch = epoch;
    return command;
}

static std::string twenty_nodes() {
    std::string text;
    for (int i = 0; i < 20; i++)
        text += "[[node]]\nnumber = " + std::to_string(i) + "\nfault = " + std::to_string(i) +
                "\nupgrade = " + std::to_string(i % 10) + "\nslots = 4\n";
    return text;
}

// What a worker does under the lease of fragment 3: whether its bytes are rebuilt from the others.
static bool is_rebuilt(Book &book) {
    std::vector<Fragment> stripe(12, Fragment(100));
    for (std::size_t d = 0; d < 12; d++)
        for (std::size_t i = 0; i < 100; i++) stripe[d][i] = std::uint8_t(i * (d + 3));
    for (auto &parity : encode(LRC_WIDE, stripe)) stripe.push_back(parity);
    Fragment lost;
    std::swap(lost, stripe[3]);
    auto recipe = book.recipe(1, 3);
    return recipe && recipe->fragment == 3 && rebuild(*recipe, stripe, lost.size()) == lost;
}

// Follows a published book until it is taken back, as a thread that looks does. Places never fall.
static Viewer followed(Viewer viewer) {
    for (std::uint64_t last = 0;;) {
        auto place = viewer.follow();
        if (place.entries < last || viewer.before() + viewer.count() != place.entries) throw std::logic_error("a viewer goes back");
        if (!place.is_published) return viewer;
        last = place.entries;
    }
}

// Whether viewers show the calls that are made beside them: node 17 fails, and its fragment is repaired.
static bool is_followed(Book &book) {
    std::future<Viewer> beside; // (it waits for its thread, which ends with the published book)
    Published published(std::move(book));
    beside = std::async(std::launch::async, followed, published.view(twenty_nodes()));
    Viewer viewer = published.view(twenty_nodes());
    published.call(1, of_node(LRC_FAIL, 17));
    // who follows after a call sees it, and nobody sooner
    if (viewer.level(1)->kind != LRC_WHOLE) return false;
    auto place = viewer.follow();
    if (place.entries != published.before() + published.count() || !place.is_published) return false;
    if (viewer.level(1)->kind != LRC_AT_RISK || viewer.missing(1) != std::uint16_t(1 << 3)) return false;
    lrc_command next{};
    next.kind = LRC_NEXT;
    auto lease = published.call(1, next).lease;
    published.call(1, of_fragment(LRC_REPORT, lease.stripe, lease.fragment, lease.epoch));
    book = published.unpublish();
    Viewer last = beside.get();
    return !viewer.follow().is_published && viewer.image() == book.image() && last.image() == book.image();
}

static int run() {
    const std::vector<lrc_command> script = {
        of_stripe(LRC_PLACE, 1),           of_node(LRC_FAIL, 3),
        of_fragment(LRC_LEASE, 1, 3),      of_fragment(LRC_REVOKE, 1, 3),
        of_fragment(LRC_LEASE, 1, 3),      of_fragment(LRC_REPORT, 1, 3, 1),
        of_fragment(LRC_REPORT, 1, 3, 2),  of_fragment(LRC_REPORT, 1, 3, 2),
        of_fragment(LRC_REVOKE, 1, 3),
    };
    Book book(twenty_nodes());
    std::printf("script 1\n");
    std::vector<lrc_entry> log;
    std::string changed;
    for (const auto &command : script) {
        auto [entry, changes] = book.call_changes(1, command);
        log.push_back(entry); // a store saves it, and then acts on the reply
        changed += std::to_string(changes.size()) + " ";
        std::printf("%zu %s\n", book.count(), reply_text(entry.reply).c_str());
        if (entry.reply.kind != LRC_GRANTED) continue;
        if (changes[0].lease_after.epoch != entry.reply.lease.epoch || !is_rebuilt(book)) return 1;
    }
    // a place fills sixteen seats; a late report and a revoke without a lease change nothing
    if (changed != "16 1 1 1 1 0 1 0 0 ") return 1;
    // nothing is left to repair, and a worker that asks by a peek adds no entry
    lrc_command next{};
    next.kind = LRC_NEXT;
    if (book.peek(1, next).kind != LRC_IDLE) return 1;
    auto entries = book.entries();
    if (entries.size() != log.size() || std::memcmp(entries.data(), log.data(), log.size() * sizeof log[0])) return 1;
    // fragment 3 moved from node 3, which is gone, to node 17
    if (book.stripes().size() != 1 || book.nodes().size() != 20 || !book.leases().empty()) return 1;
    if (!book.homes_on(3).empty() || book.homes_on(17).size() != 1 || book.first_risk() || book.repair(1, 3)) return 1;
    auto outlook = book.forecast(LRC_LOSE, {0, 1, 2, 4});
    if (outlook.first.size() != 1 || outlook.first[0].before.kind != LRC_WHOLE) return 1;
    if (refusal_name(LRC_STALE) != "stale" || rules_version() != LRC_RULES_VERSION) return 1;
    if (book.show(LRC_SHOW_LEASES) != "stripe,fragment,holder,target,epoch,expiry\n") return 1;
    // another call in the place of the last one is refused
    try {
        book.call_at(book.before() + log.size() - 1, 1, next);
        return 1;
    } catch (const Fault &fault) {
        if (fault.status != LRC_MOVED) return 1;
    }

    // the same calls in one go have the same entries
    Book grouped(twenty_nodes());
    std::vector<lrc_entry> asked(script.size());
    for (std::size_t i = 0; i < script.size(); i++) asked[i].session = 1, asked[i].command = script[i];
    auto made = grouped.calls(asked);
    if (made.first != script.size() || made.second != LRC_DONE || grouped.image() != book.image()) return 1;
    Book again(twenty_nodes(), log);
    std::printf("replayed %zu\n", again.count());
    if (again.call(1, next).kind != LRC_IDLE || again.call_entry(1, next).reply.kind != LRC_IDLE) return 1;
    // a book that begins in the image has its state, and the entries are those before it
    Book begun = Book::from_image(twenty_nodes(), book.image());
    if (begun.image() != book.image() || begun.before() != log.size() || begun.count() != 0) return 1;
    Book moved = std::move(again);
    log[4].reply.lease.epoch = 1;
    try {
        moved = Book(twenty_nodes(), log);
        return 1;
    } catch (const Fault &fault) {
        std::printf("%s at %zu\n", fault.status == LRC_DIFFERENT ? "different" : fault.what(), fault.position);
    }
    return moved.risk().empty() && is_followed(moved) ? 0 : 1;
}

int main() {
    try {
        return run();
    } catch (const std::exception &why) {
        std::fprintf(stderr, "late_worker: %s\n", why.what());
        return 1;
    }
}
