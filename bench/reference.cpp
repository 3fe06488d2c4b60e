// A plain reference in C++ for what the product answers and for how fast a machine can answer it: decode, flood by
// buckets, D-8 with flats, watershed by reverse search, and raw writes of pages.
//
// usage: reference answer SIDE ROWS COLUMNS FOLDER < LINES     replies to elev, fill, dir, trace and watershed lines
//        reference time SIDE ROWS COLUMNS FOLDER               one line a pass: its name and its time in ms;
//                                                              then the most memory that the passes took, in MB
//        reference cpu SIDE ROWS COLUMNS FOLDER                the same by time on the processor
//        reference write FILE PAGES                            time in ms of so many pages and a sync, and one more and a
//                                                              sync, in a file of its size
//        reference read FILE                                   time in ms of reading the file
//
// The tiles are N00E000.hgt and so on, ROWS northwards and COLUMNS eastwards, and agree on their common edges, so that
// they are one grid.
#include <fcntl.h>
#include <sys/resource.h>
#include <time.h>
#include <unistd.h>

#include <algorithm>
#include <array>
#include <cstdint>
#include <cstdio>
#include <cstdlib>
#include <cstring>
#include <iostream>
#include <sstream>
#include <string>
#include <vector>

namespace {

constexpr int16_t kVoid = -32768;
constexpr std::array<int, 8> kRowSteps = {0, 1, 1, 1, 0, -1, -1, -1};  // E SE S SW W NW N NE; rows run southwards
constexpr std::array<int, 8> kColumnSteps = {1, 1, 0, -1, -1, -1, 0, 1};

clockid_t clock_used = CLOCK_MONOTONIC;

double now() {
    timespec time;
    clock_gettime(clock_used, &time);
    return double(time.tv_sec) * 1e3 + double(time.tv_nsec) / 1e6;
}

std::vector<uint8_t> contents(const std::string& path) {
    std::vector<uint8_t> bytes;
    int file = open(path.c_str(), O_RDONLY);
    if (file < 0) {
        std::fprintf(stderr, "reference: cannot open %s\n", path.c_str());
        std::exit(1);
    }
    off_t length = lseek(file, 0, SEEK_END);
    bytes.resize(size_t(length));
    if (pread(file, bytes.data(), bytes.size(), 0) != length) std::exit(1);
    close(file);
    return bytes;
}

// A frame of one void cell surrounds the grid, so that each cell has eight neighbours.
class Mosaic {
public:
    Mosaic(int side, int rows, int columns, const std::string& folder) : side_(side), tile_rows_(rows), tile_columns_(columns) {
        rows_ = rows * (side - 1) + 1;
        columns_ = columns * (side - 1) + 1;
        width_ = columns_ + 2;
        size_ = size_t(rows_ + 2) * width_;
        for (int d = 0; d < 8; d++) offsets_[d] = kRowSteps[d] * width_ + kColumnSteps[d];
        for (int row = 0; row < rows; row++)
            for (int column = 0; column < columns; column++) {
                char name[32];
                std::snprintf(name, sizeof name, "/N%02dE%03d.hgt", rows - 1 - row, column);
                tiles_.push_back(contents(folder + name));
            }
    }

    void decode() {
        heights_.assign(size_, kVoid);
        for (int tile = 0; tile < int(tiles_.size()); tile++) {
            int north = tile / tile_columns_ * (side_ - 1), west = tile % tile_columns_ * (side_ - 1);
            for (int row = 0; row < side_; row++) {
                const uint8_t* from = &tiles_[tile][2 * size_t(row) * side_];
                int16_t* to = &heights_[size_t(north + row + 1) * width_ + west + 1];
                for (int column = 0; column < side_; column++) to[column] = int16_t((from[2 * column] << 8) | from[2 * column + 1]);
            }
        }
    }

    void mark() {
        outlets_.assign(size_, 0);
        for (size_t cell = width_ + 1; cell + width_ + 1 < size_; cell++) {
            if (heights_[cell] == kVoid) continue;
            for (int d = 0; d < 8; d++) outlets_[cell] |= heights_[cell + offsets_[d]] == kVoid;
        }
    }

    void flood() {
        std::vector<uint32_t> first(65536, 0), next(size_);
        std::vector<uint8_t> closed(size_);
        levels_ = heights_;
        auto wait = [&](uint32_t cell) {
            uint32_t bucket = uint32_t(levels_[cell] + 32768);
            next[cell] = first[bucket];
            first[bucket] = cell;
        };
        for (size_t cell = 0; cell < size_; cell++) {
            closed[cell] = heights_[cell] == kVoid || outlets_[cell];
            if (outlets_[cell]) wait(uint32_t(cell));
        }
        for (uint32_t bucket = 0; bucket < 65536; bucket++)
            while (uint32_t cell = first[bucket]) {
                first[bucket] = next[cell];
                int16_t level = int16_t(int(bucket) - 32768);
                for (int d = 0; d < 8; d++) {
                    uint32_t beside = cell + offsets_[d];
                    if (closed[beside]) continue;
                    closed[beside] = 1;
                    levels_[beside] = std::max(levels_[beside], level);
                    wait(beside);
                }
            }
    }

    void direct() {
        directions_.assign(size_, kNone);
        std::vector<uint8_t> flat(size_, 0);
        for (size_t cell = 0; cell < size_; cell++) {
            if (heights_[cell] == kVoid) continue;
            directions_[cell] = steepest(cell);
            flat[cell] = directions_[cell] == kNone && !outlets_[cell];
        }
        cross_flats(flat);
    }

    // all cells that drain through a cell
    std::vector<uint32_t> upstream(uint32_t outlet) const {
        std::vector<uint32_t> cells{outlet};
        for (size_t done = 0; done < cells.size(); done++)
            for (int d = 0; d < 8; d++) {
                uint32_t beside = cells[done] + offsets_[d];
                if (heights_[beside] != kVoid && directions_[beside] == ((d + 4) & 7)) cells.push_back(beside);
            }
        return cells;
    }

    std::string watershed(uint32_t outlet) const {
        std::vector<uint32_t> cells = upstream(outlet);
        std::sort(cells.begin(), cells.end());
        std::ostringstream runs;
        size_t count = 0;
        for (size_t first = 0, last; first < cells.size(); first = last + 1) {
            for (last = first; last + 1 < cells.size() && cells[last + 1] == cells[last] + 1;) last++;
            runs << y_of(cells[first]) << ' ' << x_of(cells[first]) << ' ' << x_of(cells[last]) << '\n';
            count++;
        }
        return "OK " + std::to_string(cells.size()) + " " + std::to_string(count) + "\n" + runs.str();
    }

    std::string trace(uint32_t cell) const {
        std::ostringstream points;
        size_t count = 0;
        for (;; cell += offsets_[directions_[cell]]) {
            points << y_of(cell) << ' ' << x_of(cell) << '\n';
            count++;
            if (directions_[cell] == kNone) break;
        }
        return "OK " + std::to_string(count) + "\n" + points.str();
    }

    std::string reply(const std::string& line) const {
        std::istringstream words(line);
        std::string word;
        long y, x;
        words >> word >> y >> x;
        bool inside = y >= 0 && x >= 0 && y < rows_ && x < columns_;
        uint32_t cell = inside ? uint32_t(size_t(rows_ - 1 - y + 1) * width_ + x + 1) : 0;
        if (!inside) return "ERR 7 Outside\n";
        if (heights_[cell] == kVoid) return word == "elev" ? "OK void\n" : "ERR 8 Void\n";
        if (word == "elev") return "OK " + std::to_string(heights_[cell]) + "\n";
        if (word == "fill") return "OK " + std::to_string(levels_[cell]) + "\n";
        if (word == "dir") return "OK " + std::to_string(directions_[cell] == kNone ? 0 : 1 << directions_[cell]) + "\n";
        if (word == "trace") return trace(cell);
        return watershed(cell);
    }

    // how many cells drain through each cell
    std::vector<uint32_t> counts() const {
        std::vector<uint32_t> count(size_, 0), inflows(size_, 0), order;
        for (size_t cell = 0; cell < size_; cell++)
            if (heights_[cell] != kVoid && directions_[cell] != kNone) inflows[cell + offsets_[directions_[cell]]]++;
        for (size_t cell = 0; cell < size_; cell++)
            if (heights_[cell] != kVoid) {
                count[cell] = 1;
                if (!inflows[cell]) order.push_back(uint32_t(cell));
            }
        for (size_t done = 0; done < order.size(); done++) {
            uint32_t cell = order[done];
            if (directions_[cell] == kNone) continue;
            uint32_t below = cell + offsets_[directions_[cell]];
            count[below] += count[cell];
            if (!--inflows[below]) order.push_back(below);
        }
        return count;
    }

    // the cell through which most cells drain, and one from which the longest path seen starts
    uint32_t largest() const {
        std::vector<uint32_t> count = counts();
        return uint32_t(std::max_element(count.begin(), count.end()) - count.begin());
    }

    uint32_t farthest() const {
        uint32_t best = largest();
        size_t longest = 0;
        for (size_t cell = 0; cell < size_; cell += 97) {
            if (heights_[cell] == kVoid) continue;
            size_t steps = 0;
            for (uint32_t at = uint32_t(cell); directions_[at] != kNone; at += offsets_[directions_[at]]) steps++;
            if (steps > longest) {
                longest = steps;
                best = uint32_t(cell);
            }
        }
        return best;
    }

    long y_of(uint32_t cell) const { return rows_ - 1 - (long(cell / width_) - 1); }
    long x_of(uint32_t cell) const { return long(cell % width_) - 1; }

private:
    static constexpr uint8_t kNone = 255;

    // straight drops p and diagonal drops q compare as 2pp and qq
    uint8_t steepest(size_t cell) const {
        long best = 0;
        uint8_t direction = kNone;
        for (int d = 0; d < 8; d++) {
            size_t beside = cell + offsets_[d];
            if (heights_[beside] == kVoid) continue;
            long drop = long(levels_[cell]) - levels_[beside];
            if (drop <= 0) continue;
            long slope = d & 1 ? drop * drop : 2 * drop * drop;
            if (slope > best) {
                best = slope;
                direction = uint8_t(d);
            }
        }
        return direction;
    }

    void cross_flats(const std::vector<uint8_t>& flat) {
        constexpr uint32_t kFar = 0xFFFFFFFF;
        std::vector<uint32_t> distance(size_, kFar), order;
        for (size_t cell = 0; cell < size_; cell++)
            if (heights_[cell] != kVoid && !flat[cell]) distance[cell] = 0;
        for (size_t cell = 0; cell < size_; cell++) {
            if (!flat[cell]) continue;
            for (int d = 0; d < 8; d++)
                if (distance[cell + offsets_[d]] == 0 && levels_[cell + offsets_[d]] == levels_[cell]) distance[cell] = 1;
            if (distance[cell] == 1) order.push_back(uint32_t(cell));
        }
        for (size_t done = 0; done < order.size(); done++)
            for (int d = 0; d < 8; d++) {
                uint32_t beside = order[done] + offsets_[d];
                if (!flat[beside] || distance[beside] != kFar || levels_[beside] != levels_[order[done]]) continue;
                distance[beside] = distance[order[done]] + 1;
                order.push_back(beside);
            }
        for (uint32_t cell : order)
            for (int d = 0; d < 8; d++) {
                uint32_t beside = cell + offsets_[d];
                if (levels_[beside] != levels_[cell] || distance[beside] != distance[cell] - 1) continue;
                directions_[cell] = uint8_t(d);
                break;
            }
    }

    int side_, tile_rows_, tile_columns_, rows_, columns_, width_;
    size_t size_;
    std::array<int, 8> offsets_{};
    std::vector<std::vector<uint8_t>> tiles_;
    std::vector<int16_t> heights_, levels_;
    std::vector<uint8_t> outlets_, directions_;
};

template <class Pass>
void report(const char* name, Pass pass) {
    double start = now();
    pass();
    std::printf("%s %.3f\n", name, now() - start);
}

double peak() {
    rusage used;
    getrusage(RUSAGE_SELF, &used);
    return double(used.ru_maxrss) / 1024;
}

int time_passes(Mosaic& mosaic) {
    report("decode", [&] { mosaic.decode(); });
    report("mark", [&] { mosaic.mark(); });
    report("flood", [&] { mosaic.flood(); });
    report("direct", [&] { mosaic.direct(); });
    std::printf("memory %.1f\n", peak());
    uint32_t largest = mosaic.largest(), farthest = mosaic.farthest();
    size_t bytes = 0;
    report("watershed", [&] { bytes += mosaic.watershed(largest).size(); });
    report("trace", [&] { bytes += mosaic.trace(farthest).size(); });
    std::printf("largest %ld %ld\nfarthest %ld %ld\n", mosaic.y_of(largest), mosaic.x_of(largest), mosaic.y_of(farthest), mosaic.x_of(farthest));
    return bytes == 0;
}

int answer(Mosaic& mosaic) {
    mosaic.decode();
    mosaic.mark();
    mosaic.flood();
    mosaic.direct();
    for (std::string line; std::getline(std::cin, line);) std::cout << mosaic.reply(line);
    return 0;
}

bool write_at(int file, const std::vector<uint8_t>& page, long at) { return pwrite(file, page.data(), page.size(), at * 4096) == 4096; }

// Pages settled by a sync, and then one that makes them count.
int write_pages(const char* path, long pages) {
    std::vector<uint8_t> page(4096, 7);
    int file = open(path, O_WRONLY | O_CREAT | O_TRUNC, 0644);
    if (file < 0 || ftruncate(file, (pages + 1) * 4096) != 0 || fsync(file) != 0) return 1;
    double start = now();
    for (long at = 1; at <= pages; at++)
        if (!write_at(file, page, at)) return 1;
    if (fdatasync(file) != 0 || !write_at(file, page, 0) || fdatasync(file) != 0) return 1;
    std::printf("write %.3f\n", now() - start);
    close(file);
    return 0;
}

int read_file(const char* path) {
    double start = now();
    size_t length = contents(path).size();
    std::printf("read %.3f\n", now() - start);
    return length == 0;
}

}  // namespace

int main(int count, char** words) {
    std::string what = count > 1 ? words[1] : "";
    if (what == "write" && count == 4) return write_pages(words[2], std::atol(words[3]));
    if (what == "read" && count == 3) return read_file(words[2]);
    if ((what != "answer" && what != "time" && what != "cpu") || count != 6) {
        std::fprintf(stderr, "usage: reference answer|time|cpu SIDE ROWS COLUMNS FOLDER | write FILE PAGES | read FILE\n");
        return 2;
    }
    Mosaic mosaic(std::atoi(words[2]), std::atoi(words[3]), std::atoi(words[4]), words[5]);
    if (what == "answer") return answer(mosaic);
    if (what == "cpu") clock_used = CLOCK_PROCESS_CPUTIME_ID;
    return time_passes(mosaic);
}
