// Algorithms of C++ in parallel, which oneTBB shares out over its threads: a program of tools/dt test real, and of BUILDING.md.
#include <algorithm>
#include <cstdio>
#include <execution>
#include <numeric>
#include <vector>

int main()
{
    std::vector<unsigned> numbers(100000);
    std::iota(numbers.begin(), numbers.end(), 0u);
    std::for_each(std::execution::par, numbers.begin(), numbers.end(), [](unsigned &it) { it = it * 2654435761u >> 7; });
    std::sort(std::execution::par, numbers.begin(), numbers.end());
    unsigned sum = std::reduce(std::execution::par, numbers.begin(), numbers.end());
    std::printf("%u %u %u\n", numbers.front(), numbers.back(), sum);
}
