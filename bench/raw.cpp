// What the disk half is measured beside: a program that reads the same lines and payloads from the same pipe, and makes
// the same writes and syncs in a file, with nothing kept of what it wrote and nothing checked.
//
// usage: raw FILE SECTORS
//
// `import NAME LENGTH`, with so many bytes behind the line, writes them as pages, a record, an index page for each 1024
// pages, and a root; `burn 1 Y X` writes a page, an index page, a record and a root. Each is a commit as a store's of the
// second version: a gate and a sync, these sectors and a sync, a gate and a sync. Each line is answered by a line.
#include <fcntl.h>
#include <unistd.h>

#include <algorithm>
#include <cstdint>
#include <cstdio>
#include <cstdlib>
#include <cstring>
#include <string>
#include <vector>

namespace {

constexpr long kPage = 4096;

// What a pipe brings, read in large pieces.
class Input {
public:
    bool line(std::string& line) {
        line.clear();
        for (char c = 0; take(&c, 1);) {
            if (c == '\n') return true;
            line += c;
        }
        return false;
    }

    bool take(char* into, size_t length) {
        while (length > 0) {
            if (at_ == end_ && length >= sizeof(ahead_)) {
                ssize_t got = read(0, into, length);
                if (got <= 0) return false;
                into += got, length -= got;
                continue;
            }
            if (at_ == end_) {
                ssize_t got = read(0, ahead_, sizeof(ahead_));
                if (got <= 0) return false;
                at_ = 0, end_ = got;
            }
            size_t some = std::min(length, end_ - at_);
            std::memcpy(into, ahead_ + at_, some);
            at_ += some, into += some, length -= some;
        }
        return true;
    }

private:
    char ahead_[1 << 16];
    size_t at_ = 0, end_ = 0;
};

class Raw {
public:
    Raw(const char* path, long sectors) : file_(open(path, O_RDWR | O_CREAT | O_TRUNC, 0644)), sectors_(sectors) {
        if (file_ < 0 || ftruncate(file_, sectors * kPage) != 0 || fsync(file_) != 0) std::exit(1);
    }

    void write(const char* page, long at) {
        if (pwrite(file_, page, kPage, at * kPage) != kPage) std::exit(1);
    }

    // Further sectors after the pages, and a root, between the two gates.
    void commit(const std::vector<char>& pages, long further) {
        write(zeros_, 2 * gate_);
        sync();
        for (size_t from = 0; from < pages.size(); from += kPage) write(&pages[from], next());
        for (long k = 0; k < further; k++) write(zeros_, next());
        write(zeros_, 2 * gate_ + 1);
        sync();
        write(zeros_, 2 * gate_);
        sync();
        gate_ = 1 - gate_;
    }

private:
    void sync() {
        if (fdatasync(file_) != 0) std::exit(1);
    }

    long next() {
        free_ = free_ + 1 < sectors_ ? free_ + 1 : 4;
        return free_;
    }

    int file_;
    long sectors_, free_ = 3, gate_ = 0;
    char zeros_[kPage] = {};
};

}  // namespace

int main(int count, char** words) {
    if (count != 3) return 2;
    Raw raw(words[1], std::atol(words[2]));
    Input input;
    for (std::string line; input.line(line);) {
        std::vector<char> pages(kPage);
        long further = 2;
        if (line.compare(0, 7, "import ") == 0) {
            size_t length = std::strtoul(line.c_str() + line.rfind(' '), nullptr, 10);
            pages.assign((length + kPage - 1) / kPage * kPage, 0);
            if (!input.take(pages.data(), length)) return 1;
            further = 1 + (pages.size() / kPage + 1023) / 1024;
        }
        raw.commit(pages, further);
        if (::write(1, "OK 1\n", 5) != 5) return 1;
    }
    return 0;
}
