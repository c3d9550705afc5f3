// A book of many, and its workers: each has one call in flight, so a batch takes at most one call of each of them.
#ifndef BOOK_H
#define BOOK_H

#include "../calls.h"
#include "log.h"

#include <array>
#include <optional>
#include <utility>

constexpr std::size_t WORKERS = 7; // sessions 1 to 7
constexpr std::uint8_t OPERATOR = 8;

class Book {
  public:
    Book(std::uint32_t number, const std::string &nodes, std::size_t node_count, Log &log)
        : number(number), node_count(node_count) {
        auto image = log.newest_image(number);
        if (image.text.empty()) open_book(&handle, nodes);
        else open_book(&handle, nodes, image.text);
        made = image_at = image.number;
        for (;;) {
            auto entries = log.entries_after(number, made);
            if (entries.empty()) break;
            std::size_t position = 0;
            expect_done("replay", lrc_embed_replay(&handle, entries.data(), entries.size(), &position));
            made += entries.size();
            forget_in_time(&handle);
        }
    }
    Book(Book &&other) noexcept
        : number(other.number), handle(std::exchange(other.handle, LRC_CLOSED)), node_count(other.node_count),
          made(other.made), image_at(other.image_at) {}
    ~Book() { lrc_embed_close(&handle); }

    // Makes a call, and puts its record into the batch. The reply may be seen once the batch is durable.
    lrc_reply call(std::uint8_t session, const lrc_command &command, std::vector<Record> &batch) {
        auto entry = call_book(&handle, session, command);
        batch.push_back({number, ++made, entry});
        forget_in_time(&handle);
        return entry.reply;
    }
    // Cuts the log by an image if there is none of the last so many entries, all of which are durable.
    void cut_in_time(std::uint64_t entries_an_image, Log &log) {
        if (made - image_at < entries_an_image) return;
        Image image{made, image_of(&handle)};
        if (image.text.empty()) return;
        log.cut(number, image, image_at);
        image_at = made;
    }
    lrc_reply peek(std::uint8_t session, const lrc_command &command) { return peek_book(&handle, session, command); }
    // The stripe that is nearest to loss, if one is at risk.
    std::optional<lrc_risk> most_urgent() {
        lrc_risk row{};
        auto status = lrc_embed_first_risk(&handle, &row);
        if (status == LRC_UNKNOWN) return std::nullopt;
        expect_done("first_risk", status);
        return row;
    }
    // Places the stripes of a range that are not there yet.
    void fill(std::uint16_t begin, std::uint16_t end, std::vector<Record> &batch) {
        for (auto stripe = begin; stripe < end; stripe++) {
            std::uint8_t code = 0;
            if (lrc_embed_code(&handle, stripe, &code) == LRC_DONE) continue;
            call(OPERATOR, of_stripe(LRC_PLACE, stripe), batch);
        }
    }
    // A turn of each worker: it reports what it has repaired, or asks for work. If there is none, the next node fails and
    // comes back empty, so that there is some.
    void work(std::vector<Record> &batch) {
        bool is_idle = true;
        for (std::size_t worker = 0; worker < WORKERS; worker++) is_idle &= !turn(worker, batch);
        if (!is_idle) return;
        auto node = static_cast<std::uint16_t>(failures++ % node_count);
        call(OPERATOR, of_node(LRC_FAIL, node), batch);
        call(OPERATOR, of_node(LRC_JOIN, node), batch);
    }

    const std::uint32_t number;

  private:
    // Whether the worker did something.
    bool turn(std::size_t worker, std::vector<Record> &batch) {
        auto session = static_cast<std::uint8_t>(worker + 1);
        auto &lease = leases[worker];
        if (lease) {
            call(session, report_of(*lease), batch);
            lease.reset();
            return true;
        }
        auto next = of_kind(LRC_NEXT);
        if (peek(session, next).kind != LRC_GRANTED) return false;
        lease = call(session, next, batch).lease;
        return true;
    }

    lrc_handle handle = LRC_CLOSED;
    const std::size_t node_count;
    std::uint64_t made = 0, image_at = 0; // entries, and how many the last image is after
    std::size_t failures = 0;
    std::array<std::optional<lrc_lease>, WORKERS> leases{};
};

#endif
