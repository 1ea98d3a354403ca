# needs: python3-cachetools
# about: a cache of functions, by a stress of four threads: with its lock, and without one
export PYTHONPATH="$TOP/docs/recorders/python"
case "$1" in
    plain) for way in locked bare; do /usr/bin/python3 "$HERE/stress.py" "$way"; done ;;
    recorded)
        for way in locked bare; do
            /usr/bin/python3 -m rdrecord --trace "$TRACES/$way.trace" --objects "$HERE/objects" "$HERE/stress.py" "$way"
        done ;;
esac
echo tests 2
