#include <pthread.h>
static pthread_mutex_t guard = PTHREAD_MUTEX_INITIALIZER;
static long apples = 10;
static void *deliver(void *none) {
    pthread_mutex_lock(&guard);
    apples++;
    pthread_mutex_unlock(&guard);
    return none;
}
static void *sell(void *none) { apples--; return none; }
int main(void) {
    pthread_t one, two;
    pthread_create(&one, 0, deliver, 0);
    pthread_create(&two, 0, sell, 0);
    pthread_join(one, 0);
    pthread_join(two, 0);
}
