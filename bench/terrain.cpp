// Makes realistic terrain as HGT files: fractal relief, rivers, flat lakes, pits and voids, on one grid that is cut into
// tiles, so that neighbouring tiles agree on their common edges. The same seed gives the same files.
//
// usage: terrain SEED SIDE ROWS COLUMNS FOLDER
#include <algorithm>
#include <cmath>
#include <cstdint>
#include <cstdio>
#include <cstdlib>
#include <functional>
#include <queue>
#include <string>
#include <utility>
#include <vector>

namespace {

constexpr int16_t kVoid = -32768;

// splitmix64
uint64_t mix(uint64_t z) {
    z = (z ^ (z >> 30)) * 0xBF58476D1CE4E5B9ull;
    z = (z ^ (z >> 27)) * 0x94D049BB133111EBull;
    return z ^ (z >> 31);
}

class Random {
public:
    explicit Random(uint64_t seed) : state_(seed) {}
    uint64_t next() { return mix(state_ += 0x9E3779B97F4A7C15ull); }
    uint64_t below(uint64_t limit) { return next() % limit; }

private:
    uint64_t state_;
};

class Relief {
public:
    explicit Relief(uint64_t seed) : seed_(seed) {}

    // ridged noise of several octaves, in metres; x and y in degrees
    double height(double x, double y) const {
        double sum = 0, amplitude = 1;
        x *= 4;
        y *= 4;
        for (int octave = 0; octave < 10; octave++) {
            double value = noise(octave, x, y);
            sum += amplitude * (octave < 3 ? 1 - 2 * std::fabs(value) : value);
            amplitude *= 0.52;
            x = x * 2 + 17.3;
            y = y * 2 + 5.1;
        }
        return 1500 + 900 * sum;
    }

private:
    double lattice(int octave, int64_t x, int64_t y) const {
        uint64_t z = seed_ + octave * 1000003ull + uint64_t(x) * 0x9E3779B97F4A7C15ull + uint64_t(y) * 0xC2B2AE3D27D4EB4Full;
        return double(mix(z) >> 11) / 9007199254740992.0 * 2 - 1;
    }

    double noise(int octave, double x, double y) const {
        double floor_x = std::floor(x), floor_y = std::floor(y);
        int64_t i = int64_t(floor_x), j = int64_t(floor_y);
        double u = smooth(x - floor_x), v = smooth(y - floor_y);
        double south = lattice(octave, i, j) + (lattice(octave, i + 1, j) - lattice(octave, i, j)) * u;
        double north = lattice(octave, i, j + 1) + (lattice(octave, i + 1, j + 1) - lattice(octave, i, j + 1)) * u;
        return south + (north - south) * v;
    }

    static double smooth(double t) { return t * t * t * (t * (t * 6 - 15) + 10); }

    uint64_t seed_;
};

// rows from north to south, columns from west to east
struct Grid {
    int rows, columns;
    std::vector<int16_t> heights;

    int16_t& at(int row, int column) { return heights[size_t(row) * columns + column]; }
};

// the courses of water: for each cell the one that it drains to, -1 at the edge, by one flood from the edge
std::vector<int32_t> courses(const Grid& grid, std::vector<int16_t>& levels) {
    using Entry = std::pair<int, int32_t>;
    std::vector<int32_t> parent(grid.heights.size(), -2);
    levels.assign(grid.heights.size(), 0);
    std::priority_queue<Entry, std::vector<Entry>, std::greater<Entry>> queue;
    for (int row = 0; row < grid.rows; row++)
        for (int column = 0; column < grid.columns; column++)
            if (row == 0 || column == 0 || row == grid.rows - 1 || column == grid.columns - 1) {
                int32_t cell = row * grid.columns + column;
                parent[cell] = -1;
                levels[cell] = grid.heights[cell];
                queue.push({levels[cell], cell});
            }
    while (!queue.empty()) {
        auto [level, cell] = queue.top();
        queue.pop();
        int row = cell / grid.columns, column = cell % grid.columns;
        for (int y = row - 1; y <= row + 1; y++)
            for (int x = column - 1; x <= column + 1; x++) {
                if (y < 0 || x < 0 || y >= grid.rows || x >= grid.columns) continue;
                int32_t beside = y * grid.columns + x;
                if (parent[beside] != -2) continue;
                parent[beside] = cell;
                levels[beside] = int16_t(std::max<int>(level, grid.heights[beside]));
                queue.push({levels[beside], beside});
            }
    }
    return parent;
}

void carve_rivers(Grid& grid, const std::vector<int32_t>& parent, Random& random) {
    int rivers = std::max(grid.rows, grid.columns) / 24;
    for (int river = 0; river < rivers; river++) {
        int32_t cell = int32_t(random.below(grid.heights.size()));
        int bed = grid.heights[cell];
        for (; cell >= 0; cell = parent[cell]) {
            bed = std::min<int>(bed, grid.heights[cell]);
            grid.heights[cell] = int16_t(std::max(bed - 2, -400));
        }
    }
}

void fill_lakes(Grid& grid, Random& random) {
    int shortest = std::min(grid.rows, grid.columns);
    for (int lake = 0; lake < 12; lake++) {
        int row = int(random.below(grid.rows)), column = int(random.below(grid.columns));
        int high = shortest / 60 + 1 + int(random.below(shortest / 25 + 1)), wide = shortest / 60 + 1 + int(random.below(shortest / 25 + 1));
        int lowest = 32767;
        for (bool fill : {false, true})
            for (int y = std::max(0, row - high); y < std::min(grid.rows, row + high); y++)
                for (int x = std::max(0, column - wide); x < std::min(grid.columns, column + wide); x++) {
                    double a = double(y - row) / high, b = double(x - column) / wide;
                    if (a * a + b * b >= 1) continue;
                    if (fill) grid.at(y, x) = int16_t(lowest);
                    else lowest = std::min<int>(lowest, grid.at(y, x));
                }
    }
}

void dig_pits(Grid& grid, Random& random) {
    for (size_t pit = 0; pit < grid.heights.size() / 2000; pit++) {
        int16_t& height = grid.heights[random.below(grid.heights.size())];
        height = int16_t(std::max(-500, int(height) - 1 - int(random.below(25))));
    }
}

// drunk walks, about 0.2 % of the samples
void cut_voids(Grid& grid, Random& random) {
    int walks = std::max(1, std::min(grid.rows, grid.columns) / 60);
    size_t length = grid.heights.size() / 250 / walks;
    for (int walk = 0; walk < walks; walk++) {
        int row = int(random.below(grid.rows)), column = int(random.below(grid.columns));
        for (size_t step = 0; step < length; step++) {
            grid.at(row, column) = kVoid;
            switch (random.below(4)) {
                case 0: row = std::max(row - 1, 0); break;
                case 1: row = std::min(row + 1, grid.rows - 1); break;
                case 2: column = std::max(column - 1, 0); break;
                default: column = std::min(column + 1, grid.columns - 1); break;
            }
        }
    }
}

Grid terrain(uint64_t seed, int side, int rows, int columns) {
    Random random(seed * 7919 + 13);
    Relief relief(seed * 7919 + 13);
    Grid grid{rows * (side - 1) + 1, columns * (side - 1) + 1, {}};
    grid.heights.resize(size_t(grid.rows) * grid.columns);
    for (int row = 0; row < grid.rows; row++)
        for (int column = 0; column < grid.columns; column++)
            grid.at(row, column) = int16_t(std::lrint(relief.height(double(column) / (side - 1), double(row) / (side - 1)) + double(random.below(7)) - 3));
    std::vector<int16_t> levels;
    std::vector<int32_t> parent = courses(grid, levels);
    carve_rivers(grid, parent, random);
    fill_lakes(grid, random);
    dig_pits(grid, random);
    cut_voids(grid, random);
    return grid;
}

void write_tile(Grid& grid, int side, int north, int west, const std::string& path) {
    std::vector<uint8_t> bytes;
    bytes.reserve(2 * size_t(side) * side);
    for (int row = 0; row < side; row++)
        for (int column = 0; column < side; column++) {
            uint16_t sample = uint16_t(grid.at(north + row, west + column));
            bytes.push_back(uint8_t(sample >> 8));
            bytes.push_back(uint8_t(sample & 255));
        }
    FILE* file = std::fopen(path.c_str(), "wb");
    if (!file || std::fwrite(bytes.data(), 1, bytes.size(), file) != bytes.size() || std::fclose(file) != 0) {
        std::fprintf(stderr, "terrain: cannot write %s\n", path.c_str());
        std::exit(1);
    }
}

}  // namespace

int main(int count, char** words) {
    if (count != 6) {
        std::fprintf(stderr, "usage: terrain SEED SIDE ROWS COLUMNS FOLDER\n");
        return 2;
    }
    uint64_t seed = std::strtoull(words[1], nullptr, 10);
    int side = std::atoi(words[2]), rows = std::atoi(words[3]), columns = std::atoi(words[4]);
    Grid grid = terrain(seed, side, rows, columns);
    for (int row = 0; row < rows; row++)
        for (int column = 0; column < columns; column++) {
            char name[32];
            std::snprintf(name, sizeof name, "N%02dE%03d.hgt", rows - 1 - row, column);
            write_tile(grid, side, row * (side - 1), column * (side - 1), std::string(words[5]) + "/" + name);
        }
    return 0;
}
