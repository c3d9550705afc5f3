// A store of many threads: one lock orders the book and its log, and a thread of its own makes the log durable, a group of
// entries at a time, and cuts it by images. Nobody sees a reply, or what a look shows, before it is durable.
#ifndef STORE_H
#define STORE_H

#include "../calls.h"
#include "lock.h"
#include "log.h"

#include <optional>
#include <utility>

// The number of an entry, and its reply.
struct Told {
    std::uint64_t number;
    lrc_reply reply;
};

class Store {
  public:
    // Opens the store in a folder, and makes its book from the last image and the log after it. The log is cut by an image after
    // each so many entries.
    Store(const std::string &folder, const std::string &nodes, std::uint64_t entries_an_image)
        : log(folder, checksum_of(nodes.data(), nodes.size())), entries_an_image(entries_an_image) {
        auto image = log.newest_image();
        if (image.text.empty()) open_book(&handle, nodes);
        else open_book(&handle, nodes, image.text);
        made = cut_at = image.number;
        try {
            log.read(image.number, [this](const std::vector<lrc_entry> &entries) { replay(entries); });
        } catch (...) {
            lrc_embed_close(&handle);
            throw;
        }
        durable.reach(made);
        writer = std::thread([this] { write_groups(); });
    }
    Store(const Store &) = delete;
    Store &operator=(const Store &) = delete;
    // Waits for the last group. No thread may be in another call.
    ~Store() {
        {
            std::lock_guard hold(lock);
            closing = true;
            pushed.notify_all();
        }
        writer.join();
        lrc_embed_close(&handle);
    }

    // Makes a call, and returns once its entry is durable.
    Told call(std::uint8_t session, const lrc_command &command) {
        std::unique_lock hold(lock);
        return make(hold, session, command);
    }

    // Waits until the book grants a lease, and returns that; nothing once the store stops. Idle workers make no entries.
    std::optional<Told> next(std::uint8_t session) {
        auto command = of_kind(LRC_NEXT);
        std::unique_lock hold(lock);
        while (!stopping) {
            durable.expect();
            if (peek_book(&handle, session, command).kind == LRC_GRANTED) return make(hold, session, command);
            grown.wait(hold, [this, seen = made] { return made != seen || stopping || durable.has_failed(); });
        }
        return std::nullopt;
    }

    // Asks the book, by a function of its handle, and returns once all that it has seen is durable.
    template <class Question> auto look(Question question) {
        lock.lock_to_look();
        std::unique_lock hold(lock, std::adopt_lock);
        auto answer = question(&handle);
        auto seen = made;
        hold.unlock();
        durable.wait_for(seen);
        return answer;
    }

    // The number of entries, durable or not.
    std::uint64_t count() {
        std::lock_guard hold(lock);
        return made;
    }
    std::uint64_t group_count() const { return groups; }
    std::uint64_t image_count() const { return images; }

    // Lets the workers go that wait for work. Calls and looks are made as before.
    void stop() {
        std::lock_guard hold(lock);
        stopping = true;
        grown.notify_all();
    }

  private:
    void replay(const std::vector<lrc_entry> &entries) {
        std::size_t position = 0;
        expect_done("replay", lrc_embed_replay(&handle, entries.data(), entries.size(), &position));
        made += entries.size();
        forget_in_time(&handle);
    }
    Told make(std::unique_lock<Lock> &hold, std::uint8_t session, const lrc_command &command) {
        durable.expect();
        auto entry = call_book(&handle, session, command);
        auto number = ++made;
        pending.push_back(record_of(number, durable.count(), entry));
        forget_in_time(&handle);
        pushed.notify_one();
        grown.notify_all();
        hold.unlock();
        durable.wait_for(number);
        return {number, entry.reply};
    }
    // The writer: takes all that is pending, and makes it durable without the lock. Now and then it takes an image too, and cuts
    // the log, while the calls wait that come meanwhile.
    void write_groups() {
        std::unique_lock hold(lock);
        for (;;) {
            pushed.wait(hold, [this] { return closing || !pending.empty(); });
            if (pending.empty()) return;
            std::vector<Record> group;
            group.swap(pending);
            Image image{made, {}};
            if (made - cut_at >= entries_an_image) image.text = image_of(&handle);
            hold.unlock();
            try {
                log.append(group);
                durable.reach(image.number);
                groups++;
                if (!image.text.empty()) log.cut(image), cut_at = image.number, images++;
            } catch (const LogFailed &) {
                durable.fail();
            }
            hold.lock();
            if (durable.has_failed()) return grown.notify_all();
        }
    }

    Log log;
    const std::uint64_t entries_an_image;
    lrc_handle handle = LRC_CLOSED;
    Lock lock; // for the book, what is pending, and the flags
    std::condition_variable_any pushed, grown;
    std::vector<Record> pending; // made, and not yet being written
    std::uint64_t made = 0;
    bool stopping = false, closing = false;
    Durable durable;
    std::uint64_t cut_at = 0; // the number of the last image; only the writer knows it
    std::atomic<std::uint64_t> groups{0}, images{0};
    std::thread writer;
};

#endif
