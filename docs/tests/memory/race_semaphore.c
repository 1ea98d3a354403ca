// A semaphore that lets one in hands the sum on; the count is changed before it is taken.
#include <pthread.h>
#include <semaphore.h>
static sem_t one;
static int sum, count;
static void *work(void *none) {
    count++;
    sem_wait(&one);
    sum++;
    sem_post(&one);
    return none;
}
int main(void) {
    pthread_t threads[2];
    sem_init(&one, 0, 1);
    for (int n = 0; n < 2; n++) pthread_create(&threads[n], NULL, work, NULL);
    for (int n = 0; n < 2; n++) pthread_join(threads[n], NULL);
    return sum == 2 ? 0 : 1;
}
