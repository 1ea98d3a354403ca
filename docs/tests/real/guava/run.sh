# needs: libguava-java libasm-java openjdk-17-jdk-headless
# about: Guava 31.1: its loading cache, its futures and its striped locks, each used by several threads; the jar as it is
set -eu
jars=/usr/share/java/guava.jar
javac -cp "$jars" -d . "$HERE/Load.java"
if [ "$1" = recorded ]; then "$TOP/docs/recorders/java/agent/build.sh" . > build.log; fi
for part in cache futures striped; do
    if [ "$1" = recorded ]; then
        java -javaagent:rdagent.jar="$TRACES/$part.trace" -cp "$jars:." Load $part
    else
        java -cp "$jars:." Load $part
    fi
done
echo "tests 3"
