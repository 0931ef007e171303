// Threads that throw at the same time, through frames with values to drop: the first of them sorts the tables of exceptions.
#include <atomic>
#include <iostream>
#include <stdexcept>
#include <thread>
#include <vector>

static std::atomic<int> caught, dropped;

struct Counted {
    ~Counted()
    {
        dropped++;
    }
};

static int falls(int depth)
{
    Counted counted;
    if (depth == 0)
        throw std::runtime_error("the bottom");
    return falls(depth - 1) + 1;
}

static void catches()
{
    for (int i = 0; i < 5; i++) {
        try {
            falls(4);
        } catch (const std::exception &) {
            caught++;
        }
    }
}

int main()
{
    std::vector<std::thread> threads;
    for (int i = 0; i < 8; i++)
        threads.emplace_back(catches);
    for (auto &thread : threads)
        thread.join();
    std::cout << caught << " caught, " << dropped << " dropped" << std::endl;
    try {
        falls(2);
    } catch (const std::runtime_error &error) {
        std::cout << error.what() << std::endl;
    }
}
