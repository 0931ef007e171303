// C++ without its library.
#include <pthread.h>
#include <stdio.h>

struct Base {
    virtual ~Base() {}
    virtual int value() const = 0;
};

struct Seven : Base {
    int value() const override { return 7; }
};

struct Global {
    Global() { printf("made\n"); }
    ~Global() { printf("destroyed\n"); }
};

static Global global;
static int makes;
static pthread_mutex_t mutex = PTHREAD_MUTEX_INITIALIZER;
static int sum;
static int shared_count;

static int make()
{
    return ++makes;
}

static void *run(void *argument)
{
    static int once = make();
    Base *base = new Seven;
    int *numbers = new int[10]();
    pthread_mutex_lock(&mutex);
    sum += base->value() + once + numbers[3];
    pthread_mutex_unlock(&mutex);
    __atomic_fetch_add(&shared_count, 2, __ATOMIC_RELAXED);
    delete[] numbers;
    delete base;
    return argument;
}

int main()
{
    pthread_t threads[4];
    for (auto &thread : threads)
        pthread_create(&thread, nullptr, run, nullptr);
    for (auto thread : threads)
        pthread_join(thread, nullptr);
    printf("%d %d %d\n", sum, makes, __atomic_load_n(&shared_count, __ATOMIC_ACQUIRE));
    return 0;
}
