// What is made once is read by all that asked for it.
#include <pthread.h>
static pthread_once_t once = PTHREAD_ONCE_INIT;
static int table[4];
static void fill(void) {
    for (int n = 0; n < 4; n++) table[n] = n;
}
static void *work(void *sum) {
    pthread_once(&once, fill);
    for (int n = 0; n < 4; n++) *(int *)sum += table[n];
    return NULL;
}
int main(void) {
    pthread_t threads[3];
    int sums[3] = {0};
    for (int n = 0; n < 3; n++) pthread_create(&threads[n], NULL, work, &sums[n]);
    for (int n = 0; n < 3; n++) pthread_join(threads[n], NULL);
    return sums[0] + sums[1] + sums[2] == 18 ? 0 : 1;
}
