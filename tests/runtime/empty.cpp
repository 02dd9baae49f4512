// The header in C++17: empty vectors as buffers, and the limits as constants.
#include "kullneyra.h"

#include <array>
#include <cstdint>
#include <cstdio>
#include <vector>

static_assert(KULLNEYRA_MOST_OBJECTS == 65'536 && KULLNEYRA_MOST_REFERENCES == 1'048'576);
static_assert(KULLNEYRA_LARGEST_SIZE == std::uint64_t{1} << 40);
static_assert(KULLNEYRA_STARTS == 257 && KULLNEYRA_NO_STARTS == 13);
static_assert(KULLNEYRA_SAVED(6, 2) == 78 && KULLNEYRA_UNSOUND == 14);
static_assert(KULLNEYRA_MOST_WORKERS == 16 && KULLNEYRA_MOST_SETTING == 65'535);

int main() {
    const std::vector<std::uint32_t> offsets{0, 0};
    const std::vector<std::uint32_t> targets;
    const std::vector<std::uint32_t> starts{0};
    const std::vector<std::uint8_t> schedule;
    std::vector<std::uint8_t> marks(KULLNEYRA_MARKS(1));
    std::vector<std::uint32_t> work(KULLNEYRA_WORK(1, KULLNEYRA_MOST_WORKERS));
    std::vector<std::uint64_t> tallies(KULLNEYRA_TALLIES(KULLNEYRA_MOST_WORKERS));
    std::array<std::uint64_t, KULLNEYRA_MARK_WORDS> counts{};
    const auto answer = kullneyra_mark(offsets.data(), offsets.size(), targets.data(), targets.size(),
                                       starts.data(), starts.size(), KULLNEYRA_MOST_WORKERS, 1, 1, schedule.data(),
                                       schedule.size(), marks.data(), marks.size(), work.data(), work.size(),
                                       tallies.data(), tallies.size(), counts.data(), counts.size());
    if (answer != KULLNEYRA_OK || counts[0] != 0 || counts[1] != 1) {
        std::printf("a start without references: answer %u, live %u\n", answer, static_cast<unsigned>(counts[1]));
        return 1;
    }
    return 0;
}
