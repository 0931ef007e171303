/* One thread is created and joined; the program ends with its result. */
#include <pthread.h>

int result;

static void *square(void *argument)
{
    int number = *(int *)argument;
    result = number * number;
    return argument;
}

int main(void)
{
    pthread_t thread;
    int number = 7;
    pthread_create(&thread, NULL, square, &number);
    pthread_join(thread, NULL);
    return result;
}
