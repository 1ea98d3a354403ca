// Each thread fills its half, and reads the other's behind the barrier.
#include <pthread.h>
static pthread_barrier_t both;
static int halves[2], sums[2];
static void *work(void *number) {
    int own = *(int *)number;
    for (int round = 0; round < 3; round++) {
        halves[own] = round + own;
        pthread_barrier_wait(&both);
        sums[own] += halves[1 - own];
        pthread_barrier_wait(&both);
    }
    return NULL;
}
int main(void) {
    pthread_t threads[2];
    int numbers[2] = {0, 1};
    pthread_barrier_init(&both, NULL, 2);
    for (int n = 0; n < 2; n++) pthread_create(&threads[n], NULL, work, &numbers[n]);
    for (int n = 0; n < 2; n++) pthread_join(threads[n], NULL);
    return sums[0] + sums[1] == 9 ? 0 : 1;
}
