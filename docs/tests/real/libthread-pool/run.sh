# needs: g++ libthread-pool-dev
# about: a pool of threads: its workers, queues and conditions by librdpreload.so, and its futures too where it is compiled for rdmemory.c
cpp=$TOP/docs/recorders/cpp
g++ -std=c++20 -O2 -pthread -I "$cpp" -o stress "$HERE/stress.cpp"
if [ "$1" = plain ]; then
    ./stress joined 1000
    ./stress futures 1000
    echo tests 2
    exit
fi
gcc -O2 -shared -fPIC "$cpp/rdpreload.c" -o librdpreload.so -ldl
g++ -std=c++20 -O1 -g -fsanitize=thread -I "$cpp" -c "$HERE/stress.cpp"
gcc -O2 -c "$cpp/rdmemory.c"
g++ stress.o rdmemory.o -pthread -ldl -o compiled
LD_PRELOAD=$PWD/librdpreload.so RDRECORD=$TRACES/joined.trace ./stress joined 1000
RDRECORD_MEMORY=no RDRECORD=$TRACES/futures.trace ./compiled futures 1000
RDRECORD=memory ./compiled futures 100                    # its reads and writes, where a race would end this
"$RD2" epochs memory
echo tests 3
