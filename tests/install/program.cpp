// Store S of the specification, marked and swept, by the library that is installed; prints its version.
#include <kullneyra.h>

#include <cstdio>
#include <cstring>
#include <vector>

int main() {
    const std::vector<uint32_t> offsets = {0, 2, 3, 4, 5, 5, 6}, targets = {1, 2, 3, 3, 0, 4}, starts = {0};
    const std::vector<uint64_t> sizes = {100, 200, 300, 400, 500, 600};
    const std::vector<uint8_t> schedule(80);
    std::vector<uint8_t> marks(KULLNEYRA_MARKS(6));
    std::vector<uint32_t> work(KULLNEYRA_WORK(6, 1)), list(KULLNEYRA_LIST(6));
    std::vector<uint64_t> tallies(KULLNEYRA_TALLIES(1));
    kullneyra_marked marked;
    uint32_t number = kullneyra_mark_into(offsets.data(), offsets.size(), targets.data(), targets.size(), starts.data(), starts.size(), 1, 2, 1,
                                          schedule.data(), schedule.size(), marks.data(), marks.size(), work.data(), work.size(),
                                          tallies.data(), tallies.size(), &marked);
    if (number != KULLNEYRA_OK || !marked.finished || marked.live != 4) {
        std::printf("mark: %s\n", kullneyra_refusal_text(number));
        return 1;
    }
    kullneyra_swept swept;
    number = kullneyra_sweep_into(marks.data(), marks.size(), sizes.data(), sizes.size(), list.data(), list.size(), &swept);
    if (number != KULLNEYRA_OK || swept.count != 2 || swept.freed != 1100 || list[0] != 4 || list[1] != 5) {
        std::printf("sweep: %s\n", kullneyra_refusal_text(number));
        return 1;
    }
    if (std::strcmp(kullneyra_version(), KULLNEYRA_VERSION) != 0) {
        std::printf("the library is %s, the header %s\n", kullneyra_version(), KULLNEYRA_VERSION);
        return 1;
    }
    std::printf("%s\n", kullneyra_version());
    return 0;
}
