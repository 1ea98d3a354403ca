# needs: libh2-java libasm-java openjdk-17-jdk-headless
# about: H2 2.1.214: its map store and an in-memory database, each used by four threads; the jar as it is
set -eu
jar=/usr/share/java/h2.jar
javac -cp "$jar" -d . "$HERE/Load.java"
if [ "$1" = recorded ]; then "$TOP/docs/recorders/java/agent/build.sh" . > build.log; fi
for part in own shared sql; do
    if [ "$1" = recorded ]; then
        objects="$HERE/objects"
        if [ $part = sql ]; then objects=; fi                            # there H2 changes its maps by calls of its own
        RDRECORD_OBJECTS=$objects java -javaagent:rdagent.jar="$TRACES/$part.trace" -cp "$jar:." Load $part
    else
        java -cp "$jar:." Load $part
    fi
done
echo "tests 3"
