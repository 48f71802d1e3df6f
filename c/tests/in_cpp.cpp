// The headers in C++, and a core moved from place to place.
#include "all_headers.hpp"

#include <cstdio>
#include <utility>
#include <vector>

class Core
{
  public:
    explicit Core(const wulgach_setup &setup)
    {
        result = wulgach_core_new(&place, &setup);
    }
    Core(const Core &) = delete;
    Core &operator=(const Core &) = delete;
    Core(Core &&other) noexcept
        : result(other.result), place(std::exchange(other.place, wulgach_core{}))
    {
    }
    ~Core()
    {
        wulgach_core_free(&place);
    }

    wulgach_answer step(wulgach_step step)
    {
        wulgach_answer answer{};
        result = wulgach_core_step(&place, &step, &answer);
        return answer;
    }

    int32_t result;

  private:
    wulgach_core place{};
};

int main()
{
    wulgach_setup setup{};
    setup.sq = 4;
    setup.files = 1;
    std::vector<Core> cores;
    for (int i = 0; i < 10; i++)
        cores.emplace_back(setup);
    wulgach_step index{};
    index.kind = WULGACH_INDEX;
    for (Core &core : cores)
        for (int i = 0; i < 5; i++)
            if (core.step(index).kind != (i < 4 ? WULGACH_STAGED : WULGACH_FULL) ||
                core.result != 0)
                return 1;
    std::puts("in_cpp: as it should be");
}
