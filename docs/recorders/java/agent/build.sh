#!/bin/bash
# build.sh [FOLDER]: makes rdagent.jar in FOLDER, or here. It needs a JDK of version 17 or later and ASM (Debian: libasm-java); ASM=FOLDER says where else its jars are.
set -eu
here=$(cd "$(dirname "$0")" && pwd)
into=$(cd "${1:-$here}" && pwd)
asm=${ASM:-/usr/share/java}
made=$(mktemp -d)
trap 'rm -rf "$made"' EXIT
mkdir "$made/tool" "$made/classes" "$made/jar"
javac -nowarn -cp "$asm/asm.jar:$asm/asm-commons.jar" -d "$made/tool" "$here/Relocate.java"
javac -nowarn --release 17 -cp "$asm/asm.jar" -d "$made/classes" "$here"/rdrecord/*.java 2> "$made/told" || { cat "$made/told" >&2; exit 1; }
java -cp "$made/tool:$asm/asm.jar:$asm/asm-commons.jar:$asm/asm-tree.jar" Relocate "$made/jar" "$made/classes" "$asm/asm.jar"
printf 'Premain-Class: rdrecord.Start\nBoot-Class-Path: rdagent.jar\n' > "$made/manifest"
jar cfm "$into/rdagent.jar" "$made/manifest" -C "$made/jar" .
echo "$into/rdagent.jar"
