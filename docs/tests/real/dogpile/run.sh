# needs: python3-dogpile.cache
# about: a cache in memory with a lock for each key, by a stress of four threads
export PYTHONPATH="$TOP/docs/recorders/python"
case "$1" in
    plain) for turn in 1 2 3 4 5; do /usr/bin/python3 "$HERE/stress.py"; done ;;
    recorded)
        for turn in 1 2 3 4 5; do
            /usr/bin/python3 -m rdrecord --trace "$TRACES/$turn.trace" --objects "$HERE/objects" "$HERE/stress.py"
        done ;;
esac
echo tests 5
