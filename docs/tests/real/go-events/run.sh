# needs: golang-go golang-github-docker-go-events-dev golang-github-sirupsen-logrus-dev
# about: go-events, which hands events to sinks through queues and broadcasters, by its own tests, unchanged
export GO111MODULE=off GOPATH=/usr/share/gocode GOFLAGS= GOCACHE="${GOCACHE:-$PWD/built}"
packages="github.com/docker/go-events"
if [ "$1" = plain ]; then
    go test -count=1 -v $packages > out
else
    (cd "$TOP/docs/recorders/go" && GO111MODULE=on go build -o "$OLDPWD/rdrecord-go" ./rdrecord-go)
    RDRECORD="$TRACES/go-events.trace" RDRECORD_OBJECTS="$HERE/objects" ./rdrecord-go test -v $packages > out
fi
echo "tests $(grep -cE '^--- PASS|✓' out)"
