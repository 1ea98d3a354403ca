// The sum is read before the thread that adds to it is joined.
#include <pthread.h>
static int sum;
static void *work(void *none) {
    for (int n = 0; n < 5; n++) sum += n;
    return none;
}
int main(void) {
    pthread_t thread;
    pthread_create(&thread, NULL, work, NULL);
    int early = sum;
    pthread_join(thread, NULL);
    return early <= sum ? 0 : 1;
}
