# needs: g++ libcuckoo-dev
# about: libcuckoo, a hash map for threads, as a dictionary and as a tally by a driver of 90 lines; threads and locks by librdpreload.so
cpp=$TOP/docs/recorders/cpp
g++ -std=c++20 -O2 -pthread -I "$cpp" -o stress "$HERE/stress.cpp"
gcc -O2 -shared -fPIC "$cpp/rdpreload.c" -o librdpreload.so -ldl
for mode in own locked counted shared; do
    calls=2000
    if [ $mode = shared ]; then calls=200; fi
    if [ "$1" = recorded ]; then
        LD_PRELOAD=$PWD/librdpreload.so RDRECORD=$TRACES/$mode.trace ./stress $mode 4 $calls
    else
        ./stress $mode 4 $calls
    fi
done
echo tests 4
