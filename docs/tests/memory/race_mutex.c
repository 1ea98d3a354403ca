// One addition of each thread is outside the lock.
#include <pthread.h>
static pthread_mutex_t guard = PTHREAD_MUTEX_INITIALIZER;
static int inside, outside;
static void *work(void *none) {
    for (int n = 0; n < 5; n++) {
        pthread_mutex_lock(&guard);
        inside++;
        pthread_mutex_unlock(&guard);
        outside++;
    }
    return none;
}
int main(void) {
    pthread_t threads[2];
    for (int n = 0; n < 2; n++) pthread_create(&threads[n], NULL, work, NULL);
    for (int n = 0; n < 2; n++) pthread_join(threads[n], NULL);
    return inside == 10 ? 0 : 1;
}
