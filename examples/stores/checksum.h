// The checksum of a record.
#ifndef CHECKSUM_H
#define CHECKSUM_H

#include <array>
#include <cstddef>
#include <cstdint>

// CRC-32, as zlib has it.
inline std::uint32_t checksum_of(const void *data, std::size_t length) {
    static const auto table = [] {
        std::array<std::uint32_t, 256> rows{};
        for (std::uint32_t i = 0; i < 256; i++) {
            auto row = i;
            for (int bit = 0; bit < 8; bit++) row = (row >> 1) ^ (row & 1 ? 0xEDB88320u : 0);
            rows[i] = row;
        }
        return rows;
    }();
    std::uint32_t sum = 0xFFFFFFFFu;
    auto bytes = static_cast<const unsigned char *>(data);
    for (std::size_t i = 0; i < length; i++) sum = (sum >> 8) ^ table[(sum ^ bytes[i]) & 0xFF];
    return ~sum;
}

#endif
