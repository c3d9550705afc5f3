// The log of many books: one table of PostgreSQL, to which a batch of entries of several books is appended at a time; and the
// images by which it is cut.
#ifndef LOG_H
#define LOG_H

#include "../checksum.h"
#include "lrc_embed.h"

#include <cstring>
#include <endian.h>
#include <libpq-fe.h>
#include <stdexcept>
#include <string>
#include <vector>

// An entry of a book, with its number, from 1.
struct Record {
    std::uint32_t book;
    std::uint64_t number;
    lrc_entry entry;
};

// The image of a book after so many entries; without a text, the book that has made none.
struct Image {
    std::uint64_t number = 0;
    std::string text;
};

// What PostgreSQL returns for one command.
class Rows {
  public:
    explicit Rows(PGresult *result) : result(result) {}
    Rows(const Rows &) = delete;
    Rows &operator=(const Rows &) = delete;
    ~Rows() { PQclear(result); }
    ExecStatusType status() const { return PQresultStatus(result); }
    int count() const { return PQntuples(result); }
    const char *text(int row, int column) const { return PQgetvalue(result, row, column); }
    bool has_length(int row, int column, int length) const { return PQgetlength(result, row, column) == length; }
    // The whole number of a cell in the binary format of an int8.
    std::uint64_t number(int row, int column) const {
        std::uint64_t number = 0;
        std::memcpy(&number, PQgetvalue(result, row, column), sizeof number);
        return be64toh(number);
    }

  private:
    PGresult *result;
};

class Log {
  public:
    explicit Log(const std::string &words) : at(PQconnectdb(words.c_str())) {
        if (PQstatus(at) != CONNECTION_OK) {
            std::string why = PQerrorMessage(at);
            PQfinish(at);
            throw std::runtime_error(why);
        }
    }
    Log(const Log &) = delete;
    Log &operator=(const Log &) = delete;
    ~Log() { PQfinish(at); }

    void make_tables() {
        execute("SET client_min_messages = warning");
        execute("CREATE TABLE IF NOT EXISTS book (book int8 PRIMARY KEY, nodes text NOT NULL, rules int8 NOT NULL)");
        execute("CREATE TABLE IF NOT EXISTS log (book int8, number int8, entry bytea NOT NULL CHECK (length(entry) = 128),"
                " checksum int8 NOT NULL, PRIMARY KEY (book, number))");
        execute("CREATE TABLE IF NOT EXISTS image (book int8, number int8, text text NOT NULL, checksum int8 NOT NULL,"
                " PRIMARY KEY (book, number))");
        execute("CREATE TABLE IF NOT EXISTS upgrade (domain int8 PRIMARY KEY, has_begun boolean NOT NULL)");
    }
    // Takes a book for this connection, once no other one has it. Returns the text of its nodes: that which it had before,
    // or else this one. Its log has to be of the rules of the library.
    std::string take(std::uint32_t book, const std::string &nodes) {
        if (Rows(send("SELECT pg_advisory_lock($1)", {std::to_string(book)}, 0)).status() != PGRES_TUPLES_OK) fail("lock");
        auto number = std::to_string(book), rules = std::to_string(lrc_embed_rules_version());
        execute("INSERT INTO book VALUES ($1, $2, $3) ON CONFLICT DO NOTHING", {number, nodes, rules});
        Rows rows(send("SELECT nodes, rules FROM book WHERE book = $1", {number}, 0));
        if (rows.status() != PGRES_TUPLES_OK || rows.count() != 1) fail("select");
        if (rows.text(0, 1) != rules)
            throw std::runtime_error("book " + number + ": the log is of version " + rows.text(0, 1) +
                                     " of the rules, and the library of version " + rules);
        return rows.text(0, 0);
    }
    // The entries of a book after so many, at most some thousand at a time.
    std::vector<lrc_entry> entries_after(std::uint32_t book, std::uint64_t count) {
        Rows rows(send("SELECT number, entry, checksum FROM log WHERE book = $1 AND number > $2 ORDER BY number LIMIT 10000",
                       {std::to_string(book), std::to_string(count)}, 1));
        if (rows.status() != PGRES_TUPLES_OK) fail("select");
        std::vector<lrc_entry> entries(static_cast<std::size_t>(rows.count()));
        for (int row = 0; row < rows.count(); row++) {
            auto &entry = entries[static_cast<std::size_t>(row)];
            if (rows.has_length(row, 1, sizeof entry)) std::memcpy(&entry, rows.text(row, 1), sizeof entry);
            if (rows.number(row, 0) != ++count || rows.number(row, 2) != checksum_of(&entry, sizeof entry))
                throw std::runtime_error("book " + std::to_string(book) + ": record " + std::to_string(count) +
                                         " is missing or damaged");
        }
        return entries;
    }
    // The newest image of a book that is whole.
    Image newest_image(std::uint32_t book) {
        Rows rows(send("SELECT number, text, checksum FROM image WHERE book = $1 ORDER BY number DESC", {std::to_string(book)}, 1));
        if (rows.status() != PGRES_TUPLES_OK) fail("select");
        for (int row = 0; row < rows.count(); row++) {
            Image image{rows.number(row, 0), rows.text(row, 1)};
            if (rows.number(row, 2) == checksum_of(image.text.data(), image.text.size())) return image;
        }
        return {};
    }
    // Cuts the log of a book at its last record, by the image there. The image before is kept, and the log from there on. It is
    // one command: a crash leaves all of it or nothing.
    void cut(std::uint32_t book, const Image &image, std::uint64_t before) {
        execute("WITH made AS (INSERT INTO image VALUES ($1, $2, $3, $4) ON CONFLICT (book, number) DO UPDATE"
                " SET text = excluded.text, checksum = excluded.checksum),"
                " older AS (DELETE FROM image WHERE book = $1 AND number < $5)"
                " DELETE FROM log WHERE book = $1 AND number <= $5",
                {std::to_string(book), std::to_string(image.number), image.text,
                 std::to_string(checksum_of(image.text.data(), image.text.size())), std::to_string(before)});
    }
    // Appends all records or none of them. Once it returns, they are durable.
    void append(const std::vector<Record> &records) {
        if (records.empty()) return;
        if (Rows(PQexec(at, "COPY log FROM STDIN (FORMAT binary)")).status() != PGRES_COPY_IN) fail("copy");
        std::string data("PGCOPY\n\377\r\n\0\0\0\0\0\0\0\0\0", 19);
        for (auto &record : records) {
            put<std::uint16_t>(data, htobe16(4));
            put_number(data, record.book);
            put_number(data, record.number);
            put<std::uint32_t>(data, htobe32(sizeof record.entry));
            put(data, record.entry);
            put_number(data, checksum_of(&record.entry, sizeof record.entry));
        }
        put<std::uint16_t>(data, 0xFFFF);
        if (PQputCopyData(at, data.data(), static_cast<int>(data.size())) != 1) fail("copy");
        if (PQputCopyEnd(at, nullptr) != 1) fail("copy");
        if (Rows(PQgetResult(at)).status() != PGRES_COMMAND_OK) fail("copy");
        PQclear(PQgetResult(at));
    }
    // The upgrades that a coordinator has begun in some books, and not yet in all.
    std::vector<std::uint8_t> upgrades_half_begun() {
        Rows rows(send("SELECT domain FROM upgrade WHERE NOT has_begun", {}, 0));
        std::vector<std::uint8_t> domains;
        for (int row = 0; row < rows.count(); row++)
            domains.push_back(static_cast<std::uint8_t>(std::stoi(rows.text(row, 0))));
        return domains;
    }
    void execute(const char *command, const std::vector<std::string> &parameters = {}) {
        if (Rows(send(command, parameters, 0)).status() != PGRES_COMMAND_OK) fail(command);
    }

  private:
    PGresult *send(const char *command, const std::vector<std::string> &parameters, int is_binary) {
        std::vector<const char *> texts;
        for (auto &parameter : parameters) texts.push_back(parameter.c_str());
        return PQexecParams(at, command, static_cast<int>(texts.size()), nullptr, texts.data(), nullptr, nullptr, is_binary);
    }
    [[noreturn]] void fail(const char *what) { throw std::runtime_error(std::string(what) + ": " + PQerrorMessage(at)); }
    template <class Value> static void put(std::string &data, const Value &value) {
        data.append(reinterpret_cast<const char *>(&value), sizeof value);
    }
    static void put_number(std::string &data, std::uint64_t number) {
        put<std::uint32_t>(data, htobe32(sizeof number));
        put<std::uint64_t>(data, htobe64(number));
    }

    PGconn *at;
};

#endif
