# needs: golang-go golang-golang-x-sync-dev
# about: errgroup, semaphore and singleflight of golang.org/x/sync, by their own tests, unchanged
export GO111MODULE=off GOPATH=/usr/share/gocode GOFLAGS= GOCACHE="${GOCACHE:-$PWD/built}"
packages="golang.org/x/sync/errgroup golang.org/x/sync/semaphore golang.org/x/sync/singleflight"
if [ "$1" = plain ]; then
    go test -count=1 -v $packages > out
else
    (cd "$TOP/docs/recorders/go" && GO111MODULE=on go build -o "$OLDPWD/rdrecord-go" ./rdrecord-go)
    RDRECORD="$TRACES/go-sync.trace" RDRECORD_OBJECTS="$HERE/objects" ./rdrecord-go test -v $packages > out
fi
echo "tests $(grep -cE '^--- PASS|✓' out)"
