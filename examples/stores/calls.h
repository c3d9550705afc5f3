// What the stores in C++ share: the library's versions, calls that have to be done, commands, texts of nodes and replies, and a
// history that is never full.
#ifndef CALLS_H
#define CALLS_H

#include "lrc_embed.h"

#include <stdexcept>
#include <string>

// The library has to have the interface of the header: with another one, structs and calls may mean something else. Each store
// asks before it makes any other call, and before it opens its log.
inline void expect_version() {
    auto found = lrc_embed_version();
    if (found != LRC_EMBED_VERSION)
        throw std::runtime_error("the library has version " + std::to_string(found) +
                                 " of its interface, and the header is for version " + std::to_string(LRC_EMBED_VERSION));
}

// A status of the library other than LRC_DONE.
struct Fault : std::runtime_error {
    Fault(const char *what, std::uint32_t status)
        : std::runtime_error(std::string(what) + ": status " + std::to_string(status)) {}
};
inline void expect_done(const char *what, std::uint32_t status) {
    if (status != LRC_DONE) throw Fault(what, status);
}

inline lrc_command of_kind(lrc_command_kind kind) {
    lrc_command command{};
    command.kind = static_cast<std::uint8_t>(kind);
    return command;
}
inline lrc_command of_stripe(lrc_command_kind kind, std::uint16_t stripe) {
    auto command = of_kind(kind);
    command.stripe = stripe;
    return command;
}
inline lrc_command of_node(lrc_command_kind kind, std::uint16_t node) {
    auto command = of_kind(kind);
    command.node = node;
    return command;
}
inline lrc_command of_domain(lrc_command_kind kind, std::uint8_t domain) {
    auto command = of_kind(kind);
    command.domain = domain;
    return command;
}
inline lrc_command report_of(const lrc_lease &lease) {
    auto command = of_stripe(LRC_REPORT, lease.stripe);
    command.fragment = lease.fragment;
    command.epoch = lease.epoch;
    return command;
}

// The command of a line as docs/RULES.md has it, `down 7` say; else the words for why it is none.
inline lrc_command read_command(const std::string &line) {
    lrc_command command{};
    std::uint32_t cause = 0;
    std::uint8_t words[80];
    std::size_t length = 0;
    auto status = lrc_embed_read_command(reinterpret_cast<const std::uint8_t *>(line.data()), line.size(), &command, &cause);
    if (status == LRC_DONE) return command;
    if (status != LRC_BAD_LINE) throw std::invalid_argument("the line has no command");
    expect_done("words", lrc_embed_line_words(cause, words, sizeof words, &length));
    throw std::invalid_argument(std::string(words, words + length));
}

// The text of one node of the list.
inline std::string node_text(std::size_t number, std::size_t fault, std::size_t upgrade, std::size_t slots) {
    return "[[node]]\nnumber = " + std::to_string(number) + "\nfault = " + std::to_string(fault) +
           "\nupgrade = " + std::to_string(upgrade) + "\nslots = " + std::to_string(slots) + "\n";
}

inline const std::uint8_t *bytes_of(const std::string &text) { return reinterpret_cast<const std::uint8_t *>(text.data()); }
inline void open_book(lrc_handle *handle, const std::string &nodes) {
    std::size_t detail = 0;
    expect_done("open", lrc_embed_open(handle, bytes_of(nodes), nodes.size(), &detail));
}
// The same, where the book begins in an image.
inline void open_book(lrc_handle *handle, const std::string &nodes, const std::string &image) {
    std::size_t detail = 0;
    std::uint32_t cause = 0;
    expect_done("open_image", lrc_embed_open_image(handle, bytes_of(nodes), nodes.size(), bytes_of(image), image.size(), &detail,
                                                   &cause));
}
// The image of the book; nothing if there is none now, since memory is short, say, and then the log stays as it is. The room has to
// do for the next one too: where there is too little, the image is made twice.
inline std::string image_of(lrc_handle *handle) {
    thread_local std::string room(1 << 16, 0);
    for (;;) {
        std::size_t length = 0;
        auto text = reinterpret_cast<std::uint8_t *>(room.data());
        auto status = lrc_embed_image(handle, text, room.size(), &length);
        if (status == LRC_OUT_OF_MEMORY || status == LRC_FULL) return {};
        if (status != LRC_SHORT) {
            expect_done("image", status);
            return room.substr(0, length);
        }
        room.resize(length + length / 4);
    }
}
// Makes a call, and returns its entry, for the log.
inline lrc_entry call_book(lrc_handle *handle, std::uint8_t session, const lrc_command &command) {
    lrc_entry entry{};
    expect_done("call", lrc_embed_call_entry(handle, session, &command, &entry));
    return entry;
}
inline lrc_reply peek_book(lrc_handle *handle, std::uint8_t session, const lrc_command &command) {
    lrc_reply reply{};
    expect_done("peek", lrc_embed_peek(handle, session, &command, &reply));
    return reply;
}
// What `lrcman run` prints of a reply: at most 198 bytes.
inline std::string text_of(const lrc_reply &reply) {
    std::uint8_t text[198];
    std::size_t length = 0;
    expect_done("text", lrc_embed_reply_text(&reply, text, sizeof text, &length));
    return std::string(text, text + length);
}
// Forgets the history long before it is full. The caller has the entries.
inline void forget_in_time(lrc_handle *handle) {
    std::size_t count = 0;
    expect_done("count", lrc_embed_count(handle, &count));
    if (count >= LRC_HISTORY_LIMIT / 2) expect_done("forget", lrc_embed_forget(handle));
}

#endif
