// Readers share a lock, and a writer has it alone.
#include <pthread.h>
static pthread_rwlock_t lock = PTHREAD_RWLOCK_INITIALIZER;
static int setting = 1;
static void *read_it(void *sum) {
    for (int n = 0; n < 5; n++) {
        pthread_rwlock_rdlock(&lock);
        *(int *)sum += setting;
        pthread_rwlock_unlock(&lock);
    }
    return NULL;
}
static void *write_it(void *none) {
    for (int n = 0; n < 5; n++) {
        pthread_rwlock_wrlock(&lock);
        setting++;
        pthread_rwlock_unlock(&lock);
    }
    return none;
}
int main(void) {
    pthread_t readers[2], writer;
    int sums[2] = {0};
    for (int n = 0; n < 2; n++) pthread_create(&readers[n], NULL, read_it, &sums[n]);
    pthread_create(&writer, NULL, write_it, NULL);
    for (int n = 0; n < 2; n++) pthread_join(readers[n], NULL);
    pthread_join(writer, NULL);
    return setting == 6 && sums[0] >= 5 ? 0 : 1;
}
