#include <pthread.h>
#include "rdcalls.h"

static pthread_mutex_t guard = PTHREAD_MUTEX_INITIALIZER;
static long apples = 10;
static rd_object stock;

static void change(long by) {
    rd_begin();
    long old = apples;
    RD_CALL(stock, "read", rd_number(old));
    rd_end();
    rd_begin();
    apples = old + by;
    RD_CALL(stock, "write", rd_nil(), rd_number(old + by));
    rd_end();
}
static void *deliver(void *none) {
    pthread_mutex_lock(&guard);
    change(1);
    pthread_mutex_unlock(&guard);
    return none;
}
static void *sell(void *none) { change(-1); return none; }

int main(void) {
    pthread_t one, two;
    stock = rd_new("register", "stock");
    rd_begin();
    RD_CALL(stock, "write", rd_nil(), rd_number(apples));
    rd_end();
    pthread_create(&one, 0, deliver, 0);
    pthread_create(&two, 0, sell, 0);
    pthread_join(one, 0);
    pthread_join(two, 0);
}
