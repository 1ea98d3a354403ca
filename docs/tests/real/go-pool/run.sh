# needs: golang-go golang-github-thales-e-security-pool-dev
# about: pool, which opens and keeps connections, by its own tests, unchanged
export GO111MODULE=off GOPATH=/usr/share/gocode GOFLAGS= GOCACHE="${GOCACHE:-$PWD/built}"
packages="github.com/thales-e-security/pool"
if [ "$1" = plain ]; then
    go test -count=1 -v $packages > out
else
    (cd "$TOP/docs/recorders/go" && GO111MODULE=on go build -o "$OLDPWD/rdrecord-go" ./rdrecord-go)
    RDRECORD="$TRACES/go-pool.trace" RDRECORD_OBJECTS="$HERE/objects" ./rdrecord-go test -v $packages > out
fi
echo "tests $(grep -cE '^--- PASS|✓' out)"
