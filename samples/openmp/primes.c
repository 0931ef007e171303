/* Counts the primes below a limit in a loop whose chunks the threads share out among themselves, and by tasks that halve the range. Both
 * ways and one thread alone must find as many. */
#include <omp.h>
#include <stdio.h>

enum { LIMIT = 60000, CHUNK = 500 };

static int is_prime(int number)
{
    for (int divisor = 2; divisor * divisor <= number; divisor++)
        if (number % divisor == 0)
            return 0;
    return number > 1;
}

static int count_between(int first, int end)
{
    int count = 0;
    for (int number = first; number < end; number++)
        count += is_prime(number);
    return count;
}

static int count_by_loop(void)
{
    int count = 0;
#pragma omp parallel for schedule(dynamic, CHUNK) reduction(+ : count)
    for (int number = 0; number < LIMIT; number++)
        count += is_prime(number);
    return count;
}

static int count_by_tasks(int first, int end)
{
    int below, above;
    if (end - first <= 8 * CHUNK)
        return count_between(first, end);
#pragma omp task shared(below)
    below = count_by_tasks(first, first + (end - first) / 2);
#pragma omp task shared(above)
    above = count_by_tasks(first + (end - first) / 2, end);
#pragma omp taskwait
    return below + above;
}

int main(void)
{
    int alone = count_between(0, LIMIT), by_loop = count_by_loop(), by_tasks = 0;
#pragma omp parallel
#pragma omp single
    by_tasks = count_by_tasks(0, LIMIT);
    printf("%d threads find %d primes by a loop, %d by tasks, %d alone\n", omp_get_max_threads(), by_loop, by_tasks, alone);
    return by_loop != alone || by_tasks != alone;
}
