/* Two threads that count, each in a number of its own, in the file that is the standard output, which has room for both. */
#include <pthread.h>
#include <sys/mman.h>
#include <unistd.h>

static void *count(void *number)
{
    for (;;)
        ++*(volatile long *)number;
}

int main(void)
{
    pthread_t thread;
    long *numbers = mmap(NULL, 2 * sizeof *numbers, PROT_READ | PROT_WRITE, MAP_SHARED, STDOUT_FILENO, 0);
    if (numbers == MAP_FAILED || pthread_create(&thread, NULL, count, numbers + 1) != 0)
        return 1;
    count(numbers);
}
