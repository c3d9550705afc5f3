// Files that have to be durable, and the error of one that is not.
#ifndef FILES_H
#define FILES_H

#include <cerrno>
#include <cstdint>
#include <cstdio>
#include <cstring>
#include <dirent.h>
#include <fcntl.h>
#include <map>
#include <stdexcept>
#include <string>
#include <sys/stat.h>
#include <unistd.h>
#include <utility>

// The log cannot be read, written, or believed.
struct LogFailed : std::runtime_error {
    using std::runtime_error::runtime_error;
    explicit LogFailed(const std::string &what, int error) : std::runtime_error(what + ": " + std::strerror(error)) {}
};

// A file to read and write.
class File {
  public:
    explicit File(const std::string &path, int flags = 0) : at(::open(path.c_str(), O_RDWR | O_CLOEXEC | flags, 0644)) {
        if (at < 0) throw LogFailed(path, errno);
    }
    File(File &&other) noexcept : at(other.at) { other.at = -1; }
    File &operator=(File &&other) noexcept {
        std::swap(at, other.at);
        return *this;
    }
    ~File() {
        if (at >= 0) ::close(at);
    }

    std::uint64_t size() const {
        struct stat about {};
        if (fstat(at, &about)) throw LogFailed("fstat", errno);
        return static_cast<std::uint64_t>(about.st_size);
    }
    // Reads as many bytes as there are, at most so many, and returns how many.
    std::size_t read_at(std::uint64_t place, void *data, std::size_t length) const {
        std::size_t done = 0;
        while (done < length) {
            auto now = pread(at, static_cast<char *>(data) + done, length - done, static_cast<off_t>(place + done));
            if (now < 0 && errno != EINTR) throw LogFailed("read", errno);
            if (now == 0) break;
            if (now > 0) done += static_cast<std::size_t>(now);
        }
        return done;
    }
    void write_whole(const void *data, std::size_t length) {
        for (std::size_t done = 0; done < length;) {
            auto now = ::write(at, static_cast<const char *>(data) + done, length - done);
            if (now < 0 && errno != EINTR) throw LogFailed("write", errno);
            if (now > 0) done += static_cast<std::size_t>(now);
        }
    }
    // Cuts the file off there, and goes on writing at its end.
    void cut(std::uint64_t place) {
        if (ftruncate(at, static_cast<off_t>(place))) throw LogFailed("truncate", errno);
        if (lseek(at, static_cast<off_t>(place), SEEK_SET) < 0) throw LogFailed("seek", errno);
    }
    void sync() {
        if (fdatasync(at)) throw LogFailed("sync", errno);
    }

  private:
    int at;
};

// A folder of files whose names are a number and an ending, such as 1200.log.
class Folder {
  public:
    static constexpr auto PART = ".part"; // behind the name of a file that is half written

    explicit Folder(const std::string &path) : path(path), has_older(is_folder(path + "/older")) {}

    std::string of(std::uint64_t number, const std::string &ending) const {
        return path + "/" + std::to_string(number) + ending;
    }
    // The paths of the files with an ending, by their numbers.
    std::map<std::uint64_t, std::string> all(const std::string &ending) const {
        std::map<std::uint64_t, std::string> found;
        auto folder = opendir(path.c_str());
        if (!folder) throw LogFailed(path, errno);
        while (auto entry = readdir(folder)) {
            std::string name = entry->d_name;
            auto digits = name.find_first_not_of("0123456789");
            if (digits && digits != std::string::npos && name.substr(digits) == ending)
                found[std::stoull(name)] = path + "/" + name;
        }
        closedir(folder);
        return found;
    }
    // Makes a file of these bytes. It has its name once they are durable, and then the name is durable too.
    void make(std::uint64_t number, const std::string &ending, const std::string &bytes) const {
        auto name = of(number, ending);
        File file(name + PART, O_CREAT | O_TRUNC);
        file.write_whole(bytes.data(), bytes.size());
        file.sync();
        rename(name + PART, name);
        sync();
    }
    void rename(const std::string &from, const std::string &to) const {
        if (std::rename(from.c_str(), to.c_str())) throw LogFailed("rename", errno);
    }
    // Removes a file: to the folder `older`, where somebody has made that to keep what is cut off.
    void remove(const std::string &file) const {
        if (has_older) rename(file, path + "/older" + file.substr(path.size()));
        else if (unlink(file.c_str())) throw LogFailed("unlink", errno);
    }

  private:
    // Once it returns, the names are durable.
    void sync() const {
        int at = ::open(path.c_str(), O_RDONLY | O_DIRECTORY | O_CLOEXEC);
        if (at < 0) throw LogFailed("open of the folder", errno);
        auto status = fsync(at);
        ::close(at);
        if (status) throw LogFailed("sync of the folder", errno);
    }
    static bool is_folder(const std::string &path) {
        struct stat about {};
        return !stat(path.c_str(), &about) && S_ISDIR(about.st_mode);
    }

    const std::string path;
    const bool has_older;
};

#endif
