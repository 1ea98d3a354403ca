// Boxes are handed on by a condition variable; each is freed by who takes it, and its memory is used again.
#include <pthread.h>
#include <stdlib.h>
static pthread_mutex_t guard = PTHREAD_MUTEX_INITIALIZER;
static pthread_cond_t changed = PTHREAD_COND_INITIALIZER;
static int *box;
static void *take(void *sum) {
    for (int n = 0; n < 10; n++) {
        pthread_mutex_lock(&guard);
        while (!box) pthread_cond_wait(&changed, &guard);
        int *mine = box;
        box = NULL;
        pthread_cond_signal(&changed);
        pthread_mutex_unlock(&guard);
        *(int *)sum += *mine;
        free(mine);
    }
    return NULL;
}
int main(void) {
    pthread_t taker;
    int sum = 0;
    pthread_create(&taker, NULL, take, &sum);
    for (int n = 0; n < 10; n++) {
        int *made = malloc(sizeof *made);
        *made = n;
        pthread_mutex_lock(&guard);
        while (box) pthread_cond_wait(&changed, &guard);
        box = made;
        pthread_cond_signal(&changed);
        pthread_mutex_unlock(&guard);
    }
    pthread_join(taker, NULL);
    return sum == 45 ? 0 : 1;
}
