# needs: pigz pbzip2 xz-utils zstd
# about: four programs of the distribution that compress by four threads, unchanged; there are no calls to race, each trace has to be read to its end
seq 300000 > text
if [ "$1" = recorded ]; then gcc -O2 -shared -fPIC "$TOP/docs/recorders/cpp/rdpreload.c" -o librdpreload.so -ldl; fi
both() {                                                  # NAME, what compresses, what does the other way
    if [ "$mode" = recorded ]; then
        LD_PRELOAD=$PWD/librdpreload.so RDRECORD=$TRACES/$1.trace $2 < text > small
        LD_PRELOAD=$PWD/librdpreload.so RDRECORD=$TRACES/$1.back.trace $3 < small > again
    else
        $2 < text > small
        $3 < small > again
    fi
    cmp text again
}
mode=$1
both pigz "pigz -p 4 -b 128 -c" "pigz -d -c"
both pbzip2 "pbzip2 -p4 -c" "pbzip2 -d -p4 -c"
both xz "xz -T 4 --block-size=200000 -c" "xz -d -T 4 -c"
both zstd "zstd -q --threads=4 -c" "zstd -q -d -c"
echo tests 8
