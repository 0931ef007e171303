/* Constructs of OpenMP, each with a result that no order of the threads changes. */
#include <omp.h>
#include <stdio.h>
#include <string.h>

enum { COUNT = 64, THREADS = 4 };

static int numbers[COUNT], order[COUNT], own;
#pragma omp threadprivate(own)

static int sum_of(const int *values)
{
    int sum = 0;
    for (int i = 0; i < COUNT; i++)
        sum += values[i];
    return sum;
}

static void loops(void)
{
    int sum = 0, least = COUNT, last = 0;
#pragma omp parallel for reduction(+ : sum) reduction(min : least) lastprivate(last)
    for (int i = 0; i < COUNT; i++) {
        sum += i;
        least = i < least ? i : least;
        last = i;
    }
    printf("static %d %d %d\n", sum, least, last);
#pragma omp parallel for schedule(dynamic, 3)
    for (int i = 0; i < COUNT; i++)
        numbers[i] = i;
    printf("dynamic %d\n", sum_of(numbers));
#pragma omp parallel for schedule(guided) collapse(2)
    for (int i = 0; i < COUNT / 8; i++)
        for (int k = 0; k < 8; k++)
            numbers[8 * i + k] += k;
    printf("guided %d\n", sum_of(numbers));
    omp_set_schedule(omp_sched_dynamic, 5);
#pragma omp parallel for schedule(runtime)
    for (long long i = 0; i < COUNT; i++)
        numbers[i] += 2;
    printf("runtime %d\n", sum_of(numbers));
}

static void ordered(void)
{
    int at = 0;
#pragma omp parallel for schedule(dynamic) ordered
    for (int i = 0; i < COUNT; i++) {
        int number = i * i;
#pragma omp ordered
        order[at++] = number;
    }
    int is_sorted = 1;
    for (int i = 0; i < COUNT; i++)
        is_sorted &= order[i] == i * i;
    printf("ordered %d\n", is_sorted);
}

static void regions(void)
{
    int entered = 0, singles = 0, masters = 0, copied = 0, parts = 0;
    omp_lock_t lock;
    omp_init_lock(&lock);
#pragma omp parallel
    {
        int value = 0;
#pragma omp critical
        entered++;
#pragma omp single copyprivate(value)
        {
            singles++;
            value = 7;
        }
#pragma omp atomic
        copied += value;
#pragma omp master
        masters++;
#pragma omp barrier
        omp_set_lock(&lock);
        parts += omp_get_thread_num();
        omp_unset_lock(&lock);
#pragma omp sections reduction(+ : entered)
        {
#pragma omp section
            entered += 10;
#pragma omp section
            entered += 20;
        }
    }
    omp_destroy_lock(&lock);
    printf("regions %d %d %d %d %d\n", entered, singles, masters, copied, parts);
}

static int fibonacci(int number)
{
    int one, other;
    if (number < 2)
        return number;
#pragma omp task shared(one)
    one = fibonacci(number - 1);
#pragma omp task shared(other)
    other = fibonacci(number - 2);
#pragma omp taskwait
    return one + other;
}

static void tasks(void)
{
    int found = 0, chain = 1, counted = 0;
#pragma omp parallel
#pragma omp single
    {
        found = fibonacci(10);
        for (int i = 0; i < 8; i++) {
#pragma omp task depend(inout : chain)
            chain = chain * 3 % 1000 + i;
        }
#pragma omp taskgroup
        {
#pragma omp taskloop grainsize(4)
            for (int i = 0; i < COUNT; i++) {
#pragma omp atomic
                counted += i;
            }
        }
    }
    printf("tasks %d %d %d\n", found, chain, counted);
}

static void nested(void)
{
    int inner = 0;
    omp_set_max_active_levels(2);
#pragma omp parallel num_threads(2) reduction(+ : inner)
#pragma omp parallel num_threads(3) reduction(+ : inner)
    inner += omp_get_level() * 10 + omp_get_num_threads();
    omp_set_max_active_levels(1);
    printf("nested %d\n", inner);
}

static void kept(void)
{
    int sum = 0;
#pragma omp parallel
    own = omp_get_thread_num() + 1;
#pragma omp parallel reduction(+ : sum)
    sum += own;
    printf("threadprivate %d\n", sum);
}

static void targets(void)
{
    int is_host = 0;
#pragma omp target map(from : is_host)
    is_host = omp_is_initial_device();
#pragma omp teams distribute parallel for
    for (int i = 0; i < COUNT; i++)
        numbers[i] = 1;
    printf("target %d %d\n", is_host, sum_of(numbers));
}

int main(void)
{
    double begun = omp_get_wtime();
    printf("processors %d, threads %d, version %d\n", omp_get_num_procs(), omp_get_max_threads(), _OPENMP);
    omp_set_num_threads(THREADS);
    loops();
    ordered();
    regions();
    tasks();
    nested();
    kept();
    targets();
    printf("time %d\n", omp_get_wtime() > begun && omp_get_wtick() > 0);
    return 0;
}
