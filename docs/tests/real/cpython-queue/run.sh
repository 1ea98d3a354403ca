# needs: python3
# about: the standard library's queue, its own tests, unchanged; there are no calls to race, each trace has to be read to its end
export PYTHONPATH="$TOP/docs/recorders/python"
case "$1" in
    plain) python3 -m unittest test.test_queue > out 2>&1 ;;
    recorded) python3 -m rdrecord --tests "$TRACES" -m unittest test.test_queue > out 2>&1 ;;
esac
sed -n 's/^Ran \([0-9]*\) tests.*/tests \1/p' out
