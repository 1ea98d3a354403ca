// A flag that is stored with release and loaded with acquire; two fields of one word are two variables.
#include <pthread.h>
#include <sched.h>
#include <stdatomic.h>
static atomic_int ready;
static int news;
static struct { char left, right; } sides;
static void *tell(void *none) {
    news = 7;
    sides.left = 1;
    atomic_store_explicit(&ready, 1, memory_order_release);
    sides.left = 2;
    return none;
}
int main(void) {
    pthread_t teller;
    pthread_create(&teller, NULL, tell, NULL);
    sides.right = 3;
    while (!atomic_load_explicit(&ready, memory_order_acquire)) sched_yield();
    int heard = news;
    sides.right = 4;
    pthread_join(teller, NULL);
    return heard == 7 && sides.left == 2 ? 0 : 1;
}
