# needs: libcommons-pool2-java junit5 libhamcrest-java libcglib-java libasm-java openjdk-17-jdk-headless
# about: commons-pool2 2.11.1, its own JUnit tests, unchanged: 163 tests of six classes, a trace for each class
set -eu
apt-get source --download-only libcommons-pool2-java > source.log 2>&1
tar xf commons-pool2_*.orig.tar.*
cd commons-pool-rel*
java=/usr/share/java
jars=$java/junit-jupiter-api.jar:$java/junit-jupiter-params.jar:$java/junit-jupiter-engine.jar:$java/junit-platform-console.jar
jars=$jars:$java/junit-platform-commons.jar:$java/junit-platform-engine.jar:$java/junit-platform-launcher.jar:$java/junit-platform-reporting.jar
jars=$jars:$java/opentest4j.jar:$java/opentest4j-reporting-events.jar:$java/apiguardian-api.jar:$java/hamcrest-all.jar:$java/cglib.jar:$java/asm.jar
jars=$jars:$java/picocli.jar:$java/univocity-parsers.jar
mkdir made
javac -nowarn -encoding ISO-8859-1 -proc:none -cp "$jars" -d made $(find src/main/java src/test/java -name '*.java') 2> javac.log
if [ "$1" = recorded ]; then "$TOP/docs/recorders/java/agent/build.sh" . > build.log; fi
count=0
for class in GenericObjectPool AbandonedObjectPool AbandonedKeyedObjectPool SoftReferenceObjectPool LinkedBlockingDeque EvictionTimer; do
    words="-cp made:src/test/resources:$jars org.junit.platform.console.ConsoleLauncher --disable-banner --disable-ansi-colors --details=tree"
    words="$words -c org.apache.commons.pool2.impl.Test$class"
    if [ "$1" = recorded ]; then
        RDRECORD_OBJECTS="$HERE/objects" java -javaagent:rdagent.jar="$TRACES/$class.trace" $words > "$class.out" 2>&1 || tail -40 "$class.out"
    else
        java $words > "$class.out" 2>&1 || tail -40 "$class.out"
    fi
    n=$(sed -n 's/^\[ *\([0-9]*\) tests successful.*/\1/p' "$class.out")
    echo "$class $n"
    count=$((count + n))
done
echo "tests $count"
