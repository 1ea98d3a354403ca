// The flag is atomic, but it orders nothing, so the news races.
#include <pthread.h>
#include <sched.h>
#include <stdatomic.h>
static atomic_int ready;
static int news;
static void *tell(void *none) {
    news = 7;
    atomic_store_explicit(&ready, 1, memory_order_relaxed);
    return none;
}
int main(void) {
    pthread_t teller;
    pthread_create(&teller, NULL, tell, NULL);
    while (!atomic_load_explicit(&ready, memory_order_relaxed)) sched_yield();
    int heard = news;
    pthread_join(teller, NULL);
    return heard == 7 ? 0 : 1;
}
