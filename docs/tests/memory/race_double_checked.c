// The first look at the value is outside the lock that its making holds.
#include <pthread.h>
static pthread_mutex_t guard = PTHREAD_MUTEX_INITIALIZER;
static int made, value;
static void *work(void *none) {
    if (!made) {
        pthread_mutex_lock(&guard);
        if (!made) {
            value = 5;
            made = 1;
        }
        pthread_mutex_unlock(&guard);
    }
    return none;
}
int main(void) {
    pthread_t threads[2];
    for (int n = 0; n < 2; n++) pthread_create(&threads[n], NULL, work, NULL);
    for (int n = 0; n < 2; n++) pthread_join(threads[n], NULL);
    return value == 5 ? 0 : 1;
}
