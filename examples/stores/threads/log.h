// The log of a store: files with a record for each entry, in order, to which whole groups of records are appended; and images
// of the book, by which it is cut.
//
// N.log has the records after entry N, up to the one at which the next file begins. N.image has the image after entry N.
#ifndef LOG_H
#define LOG_H

#include "../checksum.h"
#include "files.h"
#include "lrc_embed.h"

#include <cstdio>
#include <iterator>
#include <memory>
#include <vector>

// What each file begins with.
struct Header {
    std::uint64_t magic;
    std::uint32_t rules; // their version, of which the replies are
    std::uint32_t nodes; // the checksum of the text of the nodes
};
constexpr std::uint64_t MAGIC = 0x32474F4C43524C2E; // ".LRCLOG2"

struct Record {
    std::uint64_t number;  // of the entry, from 1
    std::uint64_t durable; // the number of entries that were durable when this was written
    lrc_entry entry;
    std::uint32_t reserved;
    std::uint32_t checksum; // of all bytes before it
};
static_assert(sizeof(Header) == 16 && sizeof(Record) == 152, "the files have no padding");

inline Record record_of(std::uint64_t number, std::uint64_t durable, const lrc_entry &entry) {
    Record record{number, durable, entry, 0, 0};
    record.checksum = checksum_of(&record, offsetof(Record, checksum));
    return record;
}

inline bool is_whole(const Record &record) { return record.checksum == checksum_of(&record, offsetof(Record, checksum)); }

// The image of a book after so many entries; without a text, the book that has made none.
struct Image {
    std::uint64_t number = 0;
    std::string text;
};

// The bytes of a struct, behind what is there.
template <class Value> void put(std::string &bytes, const Value &value) {
    bytes.append(reinterpret_cast<const char *>(&value), sizeof value);
}

// A file of the log. Its records are numbered on from its first.
class LogFile {
  public:
    LogFile(const std::string &path, std::uint64_t before) : before(before), file(path) {}

    Header header() const {
        Header found{};
        file.read_at(0, &found, sizeof found);
        return found;
    }
    // Passes the entries of the file on, some thousand at a time, up to the first record that is not whole. Returns the number
    // of the last.
    template <class Take> std::uint64_t read(Take take) const {
        std::vector<Record> records(PIECE);
        std::vector<lrc_entry> entries;
        auto number = before;
        for (;;) {
            auto count = read_records(number, records);
            entries.clear();
            for (std::size_t i = 0; i < count && is_whole(records[i]) && records[i].number == number + 1; i++, number++)
                entries.push_back(records[i].entry);
            take(entries);
            if (entries.size() < PIECE) return number;
        }
    }
    // After the last entry there may be records of groups that never became durable, which are cut off. A whole one that was
    // written when more was durable says that an entry before it was damaged later.
    void cut_torn_end(std::uint64_t last) {
        std::vector<Record> records(PIECE);
        auto count = PIECE;
        for (auto from = last; count == PIECE; from += PIECE) {
            count = read_records(from, records);
            for (std::size_t i = 0; i < count; i++)
                if (is_whole(records[i]) && records[i].durable > last) throw damaged(last + 1);
        }
        file.cut(place_after(last));
        file.sync();
    }
    void append(const std::vector<Record> &records) {
        file.write_whole(records.data(), records.size() * sizeof(Record));
        file.sync();
    }
    static LogFailed damaged(std::uint64_t number) { return LogFailed("record " + std::to_string(number) + " is damaged"); }

    const std::uint64_t before; // the number of the entry before its first

  private:
    static constexpr std::size_t PIECE = 10000;

    std::uint64_t place_after(std::uint64_t number) const { return sizeof(Header) + (number - before) * sizeof(Record); }
    // Reads whole records from behind that number, and returns how many there are.
    std::size_t read_records(std::uint64_t number, std::vector<Record> &records) const {
        return file.read_at(place_after(number), records.data(), records.size() * sizeof(Record)) / sizeof(Record);
    }

    File file;
};

class Log {
  public:
    // The log in a folder. Its nodes are those with this checksum.
    Log(const std::string &path, std::uint32_t nodes) : folder(path), mine{MAGIC, lrc_embed_rules_version(), nodes} {
        for (auto ending : {IMAGE, LOG})
            for (auto &[number, part] : folder.all(ending + Folder::PART)) folder.remove(part); // (half written)
    }

    // The newest image that is whole: the log goes on from there. A damaged one is passed over, which is told, and gets another
    // name.
    Image newest_image() const {
        auto images = folder.all(IMAGE);
        for (auto at = images.rbegin(); at != images.rend(); at++) {
            Image image{at->first, {}};
            if (read_image(at->second, image.text)) return image;
            std::fprintf(stderr, "store: %s is damaged\n", at->second.c_str());
            folder.rename(at->second, at->second + ".damaged");
        }
        return {};
    }

    // Passes the entries after an image on, and cuts off what a crash has left half written.
    template <class Take> void read(std::uint64_t image, Take take) {
        auto files = folder.all(LOG);
        if (files.empty() && image == 0) return begin_file(0);
        auto at = files.find(image);
        if (at == files.end()) throw LogFailed("there is no log after entry " + std::to_string(image));
        auto number = image; // of the last entry that was read
        for (; at != files.end(); at++) {
            if (at->first != number) throw LogFile::damaged(number + 1);
            file = std::make_unique<LogFile>(at->second, at->first);
            expect_mine(file->header());
            number = file->read(take);
        }
        file->cut_torn_end(number);
    }

    // Appends records. Once it returns, they are durable. After LogFailed nobody knows which of them the file has: only a
    // new `read` tells.
    void append(const std::vector<Record> &records) { file->append(records); }

    // Cuts the log at the last record: keeps an image of the book there, and removes what is older than the image before.
    void cut(const Image &image) {
        begin_file(image.number);
        write_image(image);
        auto images = folder.all(IMAGE);
        if (images.size() < 2) return;
        auto kept = std::prev(images.end(), 2)->first;
        for (auto ending : {IMAGE, LOG})
            for (auto &[number, path] : folder.all(ending))
                if (number < kept) folder.remove(path);
    }

  private:
    static inline const std::string LOG = ".log", IMAGE = ".image";

    // What a file of an image begins with, after the header.
    struct Length {
        std::uint64_t bytes;
        std::uint32_t reserved, checksum; // of the text
    };

    // By other rules, or over other nodes, a replay would stop at the first reply that differs, and until then be of another
    // history; and an image would be one of another.
    void expect_mine(const Header &found) const {
        if (found.magic != MAGIC) throw LogFailed("the file is no log of this store");
        if (found.rules != mine.rules)
            throw LogFailed("the log is of version " + std::to_string(found.rules) +
                            " of the rules, and the library of version " + std::to_string(mine.rules));
        if (found.nodes != mine.nodes) throw LogFailed("the log has other nodes");
    }
    // Begins the file of the records after that one.
    void begin_file(std::uint64_t number) {
        std::string bytes;
        put(bytes, mine);
        folder.make(number, LOG, bytes);
        file = std::make_unique<LogFile>(folder.of(number, LOG), number);
        file->cut_torn_end(number); // (it goes on at its end)
    }
    void write_image(const Image &image) const {
        std::string bytes;
        put(bytes, mine);
        put(bytes, Length{image.text.size(), 0, checksum_of(image.text.data(), image.text.size())});
        folder.make(image.number, IMAGE, bytes + image.text);
    }
    // Reads the text of an image. Whether it is whole.
    bool read_image(const std::string &path, std::string &text) const {
        const File file(path);
        Header header{};
        Length length{};
        if (file.read_at(0, &header, sizeof header) < sizeof header) return false;
        if (file.read_at(sizeof header, &length, sizeof length) < sizeof length) return false;
        if (length.bytes != file.size() - sizeof header - sizeof length) return false;
        text.resize(length.bytes);
        file.read_at(sizeof header + sizeof length, text.data(), text.size());
        if (length.checksum != checksum_of(text.data(), text.size())) return false;
        expect_mine(header);
        return true;
    }

    const Folder folder;
    const Header mine;
    std::unique_ptr<LogFile> file; // the last one
};

#endif
