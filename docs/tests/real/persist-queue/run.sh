# needs: python3-persist-queue python3-nose2 python3-msgpack python3-cbor2
# about: a queue on files and on SQLite, all its own tests, unchanged
tests=/usr/lib/python3/dist-packages/persistqueue/tests
export PYTHONPATH="$TOP/docs/recorders/python"
case "$1" in
    plain) /usr/bin/python3 -m nose2 -s "$tests" -t "$tests" > out 2>&1 ;;
    recorded) /usr/bin/python3 -m rdrecord --tests "$TRACES" --objects "$HERE/objects" -m nose2 -s "$tests" -t "$tests" > out 2>&1 ;;
esac || true                                      # some of its tests fail when their race comes true
sed -n 's/^Ran \([0-9]*\) tests.*/tests \1/p' out
