/* Threads, exceptions, containers and streams of C++'s library. */
#include <algorithm>
#include <atomic>
#include <condition_variable>
#include <future>
#include <iostream>
#include <map>
#include <memory>
#include <mutex>
#include <numeric>
#include <sstream>
#include <stdexcept>
#include <string>
#include <thread>
#include <vector>

static std::mutex mutex;
static std::condition_variable changed;
static std::atomic<int> total{0};
static thread_local int own = 0;

struct Noisy {
    int number;
    explicit Noisy(int given) : number(given) { total += 1; }
    ~Noisy() { total -= 1; }
};

static int deep(int depth)
{
    Noisy noisy(depth);
    if (depth == 0)
        throw std::runtime_error("from the depth");
    return deep(depth - 1) + 1;
}

static int catches(int number)
{
    int caught = 0;
    for (int i = 0; i < 20; i++) {
        try {
            deep(number + i % 3);
        } catch (const std::exception &error) {
            caught += std::string(error.what()) == "from the depth";
        }
        own++;
    }
    return caught * 100 + own;
}

static void many_threads()
{
    std::vector<std::thread> threads;
    std::vector<int> results(8);
    for (int i = 0; i < 8; i++)
        threads.emplace_back([&results, i] { results[i] = catches(i); });
    for (auto &thread : threads)
        thread.join();
    std::cout << "caught " << std::accumulate(results.begin(), results.end(), 0) << " left " << total << std::endl;
}

static void queue_of_work()
{
    std::vector<int> queue;
    bool is_done = false;
    long sum = 0;
    std::thread consumer([&] {
        std::unique_lock<std::mutex> lock(mutex);
        while (true) {
            changed.wait(lock, [&] { return is_done || !queue.empty(); });
            for (int each : queue)
                sum += each;
            queue.clear();
            if (is_done)
                return;
        }
    });
    for (int i = 1; i <= 100; i++) {
        std::lock_guard<std::mutex> lock(mutex);
        queue.push_back(i);
        changed.notify_one();
    }
    {
        std::lock_guard<std::mutex> lock(mutex);
        is_done = true;
    }
    changed.notify_one();
    consumer.join();
    std::cout << "sum " << sum << '\n';
}

static void futures()
{
    auto one = std::async(std::launch::async, [] { return 40 + 2; });
    auto two = std::async(std::launch::async, []() -> int { throw std::out_of_range("in a future"); });
    std::promise<std::string> promise;
    auto future = promise.get_future();
    std::thread thread([&promise] { promise.set_value("kept"); });
    std::cout << "future " << one.get() << ' ' << future.get() << '\n';
    thread.join();
    try {
        two.get();
    } catch (const std::out_of_range &error) {
        std::cout << "caught " << error.what() << '\n';
    }
}

static void containers()
{
    std::map<std::string, std::vector<int>> map;
    std::istringstream words("one two three two one two");
    std::string word;
    for (int place = 0; words >> word; place++)
        map[word].push_back(place);
    for (const auto &entry : map) {
        std::cout << entry.first << ':';
        for (int place : entry.second)
            std::cout << ' ' << place;
        std::cout << '\n';
    }
    auto shared = std::make_shared<Noisy>(7);
    std::weak_ptr<Noisy> weak = shared;
    std::cout << shared.use_count() << ' ' << weak.expired();
    shared.reset();
    std::cout << ' ' << weak.expired() << '\n';
    std::ostringstream text;
    text.precision(3);
    text << 3.14159 << ' ' << std::hex << 255;
    std::cout << text.str() << '\n';
}

static std::once_flag once;

int main()
{
    many_threads();
    queue_of_work();
    futures();
    containers();
    for (int i = 0; i < 3; i++)
        std::call_once(once, [] { std::cout << "once\n"; });
    try {
        std::vector<int>().at(3);
    } catch (const std::exception &error) {
        std::cout << "a vector throws\n";
    }
    return 0;
}
