// The bare loop over a table file: the next row from row and category, and nothing else.
//
//   bare TABLE TEXT ROUNDS    the row at the end, and the seconds of one round, the least of ROUNDS
//
// A search can't be faster than this. Where a search would stop, in row 0, the loop goes on in
// row 1, so the characters that it reads are those of the text, each once. The text is decoded and
// its categories are looked up character by character within the loop.
#include <algorithm>
#include <cstdint>
#include <cstdio>
#include <cstdlib>
#include <ctime>
#include <fstream>
#include <iterator>
#include <limits>
#include <string>
#include <vector>

static std::string read_file(const char *name) {
    std::ifstream file(name, std::ios::binary);
    if (!file) {
        std::fprintf(stderr, "cannot read %s\n", name);
        std::exit(6);
    }
    return std::string((std::istreambuf_iterator<char>(file)), std::istreambuf_iterator<char>());
}

// A reader of little-endian numbers.
struct Reader {
    const std::string &bytes;
    size_t at;
    uint32_t number(int size) {
        uint32_t value = 0;
        for (int i = 0; i < size; i++) {
            if (at >= bytes.size()) {
                std::fprintf(stderr, "the table is too short\n");
                std::exit(4);
            }
            value |= static_cast<uint32_t>(static_cast<unsigned char>(bytes[at++])) << (8 * i);
        }
        return value;
    }
};

static std::vector<uint32_t> decode(const std::string &bytes) {
    std::vector<uint32_t> text;
    for (size_t i = 0; i < bytes.size();) {
        unsigned char lead = bytes[i];
        int more = lead < 0x80 ? 0 : lead < 0xE0 ? 1 : lead < 0xF0 ? 2 : 3;
        uint32_t code = more == 0 ? lead : lead & (0x3F >> more);
        for (int k = 1; k <= more; k++) code = code << 6 | (bytes[i + k] & 0x3F);
        text.push_back(code);
        i += more + 1;
    }
    return text;
}

// The seconds that a processor has worked for this process.
static double seconds() {
    timespec now;
    clock_gettime(CLOCK_PROCESS_CPUTIME_ID, &now);
    return now.tv_sec + now.tv_nsec / 1e9;
}

int main(int count, char **words) {
    if (count != 4) {
        std::fprintf(stderr, "usage: bare TABLE TEXT ROUNDS\n");
        return 2;
    }
    std::string bytes = read_file(words[1]);
    Reader reader{bytes, 7};
    uint32_t version = reader.number(1);
    uint32_t categories = reader.number(2), ranges = reader.number(4), lists = reader.number(2);
    uint32_t rows = reader.number(2);
    reader.number(2);
    int cell = version == 2 && rows <= 255 ? 1 : 2;

    std::vector<uint32_t> starts, cats;
    for (uint32_t i = 0; i < ranges; i++) {
        starts.push_back(reader.number(4));
        cats.push_back(reader.number(2));
    }
    starts.push_back(0x110000);
    // Categories in two steps: blocks of 256 code points, each of which names its block of numbers.
    std::vector<uint16_t> category(0x110000);
    for (uint32_t i = 0; i < ranges; i++)
        for (uint32_t code = starts[i]; code < starts[i + 1]; code++) category[code] = cats[i];
    std::vector<uint16_t> block(0x1100);
    std::vector<uint16_t> blocks;
    for (uint32_t b = 0; b < 0x1100; b++) {
        uint32_t found = 0, known = blocks.size() / 256;
        while (found < known &&
               !std::equal(blocks.begin() + found * 256, blocks.begin() + found * 256 + 256,
                           category.begin() + b * 256))
            found++;
        if (found == known)
            blocks.insert(blocks.end(), category.begin() + b * 256, category.begin() + b * 256 + 256);
        block[b] = found;
    }

    for (uint32_t i = 0; i < lists; i++)
        for (uint32_t left = reader.number(2); left > 0; left--) reader.number(4);
    // A cell holds where the next row's cells begin; row 0 is turned into row 1.
    std::vector<uint32_t> cells;
    for (uint32_t row = 0; row < rows; row++) {
        reader.number(2);
        reader.number(4);
        reader.number(2);
        for (uint32_t c = 0; c < categories; c++) {
            uint32_t next = reader.number(cell);
            cells.push_back((next == 0 ? 1 : next) * categories);
        }
    }

    std::vector<uint32_t> text = decode(read_file(words[2]));
    double least = std::numeric_limits<double>::infinity();
    uint32_t row = categories;
    for (int round = 0; round < std::atoi(words[3]); round++) {
        double start = seconds();
        row = categories;
        for (uint32_t code : text) row = cells[row + blocks[block[code >> 8] * 256 + (code & 255)]];
        least = std::min(least, seconds() - start);
    }
    std::printf("%u %.6f\n", row / categories, least);
    return 0;
}
