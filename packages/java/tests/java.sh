#!/usr/bin/env bash
# reads: packages/java crates/test_replay/data tests/fields.tsv scripts/java_buffers docs/BINDINGS.md
# Builds the jar of the Java package with `make jar`, and tests it as a module, with JUnit over all vectors, and by the
# commands on its page. Also compiles the program that computes formulas.
. "$(dirname "$0")/../../../tests/cases.sh"
folder=$top/packages/java
jar=$top/build/yervound-rapidhash-1.0.0.jar
junit=/usr/share/java/junit4.jar:/usr/share/java/hamcrest.jar
package=example.yervound.rapidhash

# Compiles all sources in directories, without a warning: OUTPUT CLASSPATH DIRECTORY..
compile() {
  find "${@:3}" -name '*.java' >"$room/sources" && [ -s "$room/sources" ] &&
    javac --release 11 -Xlint:all -Xdoclint:all,-missing -Werror -d "$1" -cp "$2" "@$room/sources"
}

# Checks that the secrets of V1 and those of the other versions are two types, which a call cannot confuse.
tells_secrets_apart() {
  cat >"$room/Call.java" <<JAVA
import $package.*;
class Call {
    long first = Rapidhash.V1.hash(new byte[1], SecretsV1.ofSeed(7)), other = Rapidhash.V3.hash("a", Secrets.make(7));
    long wrong = Rapidhash.V1.hash(new byte[1], Secrets.ofSeed(7));
    long wrongToo = Rapidhash.V3.hash(new byte[1], SecretsV1.ofSeed(7));
    long unknown = Rapidhash.ALL.get(0).hash(new byte[1], Secrets.ofSeed(7));
    Object stream = Rapidhash.V3.stream(SecretsV1.ofSeed(7));
}
JAVA
  ! javac -cp "$jar" -d "$room" "$room/Call.java" 2>"$room/said" &&
    diff <(grep -o 'java:[0-9]*: error: no suitable method' "$room/said" | grep -o '[0-9]*') <(seq 4 7)
}

# Compiles the package with the random functions in place of its loads and its product.
compiles_formulas() {
  mkdir "$room/formulas" && cp -r "$folder/src/main/java/." "$folder/src/formulas/java/." "$room/formulas" &&
    rm "$room/formulas/module-info.java" && compile "$room/subject" "$room" "$room/formulas" &&
    head -c 32768 /dev/zero | java -cp "$room/subject" "$package.Formulas"
}

# Prints the hash of hello in a program that requires the module.
runs_as_a_module() {
  mkdir -p "$room/module" && echo "module first { requires $package; }" >"$room/module/module-info.java" &&
    cat >"$room/module/First.java" <<JAVA && javac -p "$jar" -d "$room/module" "$room"/module/*.java &&
package first;

import $package.Rapidhash;

class First {
    public static void main(String[] words) {
        System.out.println(Rapidhash.toDecimal(Rapidhash.V3.hash("hello".getBytes())));
    }
}
JAVA
    [ "$(java -p "$jar:$room/module" -m first/first.First)" = 3327445792987248966 ]
}

# Tests the classes in the jar, where the encoding of texts is not UTF-8: TEST
passes() {
  cd "$folder" &&
    java -ea -Dfile.encoding=US-ASCII -cp "$jar:$room/tests:$junit" org.junit.runner.JUnitCore "$package.$1"
}

# Checks that the module has the version of the pom, which has the licences. Users need no package, and the language's
# module alone. Make and Maven add the class of later JDKs from the JDK of the page on.
pom_is_current() {
  local version later
  version=$(jar -f "$jar" -d | sed -n "s/^$package@\\([0-9.]*\\) .*/\\1/p") && [[ $(<"$folder/pom.xml") == *"
  <groupId>example.yervound</groupId>
  <artifactId>yervound-rapidhash</artifactId>
  <version>$version</version>"* ]] &&
    grep -x ' *<name>MIT OR Apache-2.0</name>' "$folder/pom.xml" &&
    [ "$(grep -c '<dependency>' "$folder/pom.xml")" -eq "$(grep -cx ' *<scope>test</scope>' "$folder/pom.xml")" ] &&
    [ "$(jar -f "$jar" -d | grep -c requires)" -eq 1 ] && later=$(sed -n "s/^later = //p" "$folder/make.mk") &&
    grep "on JDK $later or later" "$folder/README.md" && grep -F "<later>$later<" "$folder/pom.xml" &&
    grep -F "<jdk>[$later,)<" "$folder/pom.xml"
}

# Adds to a copy of the package a stub of Math, whose name hides that of the JDK in its package, for the class of later
# JDKs. No later JDK is at hand, so the class is compiled for JDK 17 instead, which then runs it: DIRECTORY
stub_later_product() {
  cat >"$1/src/java18/example/yervound/rapidhash/Math.java" <<JAVA
package $package;

class Math {
    static long unsignedMultiplyHigh(long a, long b) {
        long half = 0xffffffffL;
        long cross = (a >>> 32) * (b & half);
        long middle = (a & half) * (b >>> 32) + ((a & half) * (b & half) >>> 32) + (cross & half);
        return (a >>> 32) * (b >>> 32) + (cross >>> 32) + (middle >>> 32);
    }
}
JAVA
}

# Checks that JDK 17 loads that stub from a jar and has the right product, and that JDK 11 would load neither: JAR
has_the_later_product() {
  local test=(-verbose:class -cp "$1:$room/tests:$junit" org.junit.runner.JUnitCore "$package.PrimitivesTest")
  java "${test[@]}" >"$room/loaded" && grep " $package.Math source: file:$1" "$room/loaded" &&
    java -Djdk.util.jar.version=11 "${test[@]}" >"$room/loaded" && ! grep " $package.Math " "$room/loaded"
}

# Checks that make adds the class of later JDKs, with which the jar has all values, and that it says so if it cannot.
adds_the_later_product() {
  local jar=$room/later/build/yervound-rapidhash-1.0.0.jar
  local said='make: the jar has no class for JDK 99 and later, which needs such a javac'
  copy_sources "$room/later" && stub_later_product "$room/later/packages/java" &&
    make -s -C "$room/later" later=99 jar 2>&1 | diff - <(echo "$said") &&
    ! jar -tf "$jar" | grep versions &&
    touch "$room/later/packages/java/pom.xml" && make -s -C "$room/later" later=17 jar &&
    has_the_later_product "$jar" && passes CasesTest
}

# Builds and tests the package by Maven with Debian's plugins, offline, below the files of cases and fields. No test may
# skip itself. With the profile of later JDKs the jar must have their class.
builds_by_maven() {
  local jar=$room/maven/target/yervound-rapidhash-1.0.0.jar
  cp -rs /usr/share/maven-repo "$room/maven-repo" && cp -r "$folder" "$room/maven" &&
    install -D -t "$room/crates/test_replay/data" "$top/crates/test_replay/data/cases.tsv" &&
    install -D -t "$room/tests" "$top/tests/fields.tsv" && cd "$room/maven" &&
    mvn -o -B -Dmaven.repo.local="$room/maven-repo" package &&
    [ "$(cat target/surefire-reports/*.xml | grep -c '<testcase ')" -eq "$(grep -rhE '^ *@Test' src/test | wc -l)" ] &&
    [ "$(cat target/surefire-reports/*.xml | grep -c '<skipped')" -eq 0 ] &&
    runs_as_a_module && is_for_the_jdk_of_the_page && stub_later_product "$room/maven" &&
    mvn -o -B -Dmaven.repo.local="$room/maven-repo" -P later -Dlater=17 -Dmaven.test.skip=true package &&
    has_the_later_product "$jar"
}

# Checks that a test makes each call of the page in the block with a word, with HELLO as the bytes: WORD TEST
runs_the_page() {
  blocks "$folder/README.md" java "$1" | sed 's/;.*//; s/\bbytes\b/HELLO/g' >"$room/calls" && [ -s "$room/calls" ] &&
    while read -r call; do
      grep -F "$call" "$(find "$folder/src" -name "$2.java")" || return 1
    done <"$room/calls"
}

# Compiles the function for Guava, which is not in the jar, and runs its test and the calls on its page.
works_with_guava() {
  local guava=$junit:/usr/share/java/guava.jar:/usr/share/java/error_prone_annotations.jar
  compile "$room/guava" "$jar:$guava" "$folder/src/guava" && ! jar -tf "$jar" | grep -i guava && cd "$top" &&
    java -ea -cp "$jar:$room/guava:$guava" org.junit.runner.JUnitCore "$package.guava.RapidhashFunctionTest" &&
    runs_the_page RapidhashFunction RapidhashFunctionTest
}

# Writes a public type, with a part of what the program of its package has there: PACKAGE DECLARATION
stub() {
  local name=${2#* } folder=$room/stubs/${1//.//}
  mkdir -p "$folder" && echo "package $1; public $2" >"$folder/${name%%[<> {(]*}.java"
}

# Compiles the classes and calls of the page for Kafka and Spark with stubs of their interfaces, and calls them.
works_in_other_programs() {
  stub org.apache.kafka.common 'class Cluster { public Integer partitionCountForTopic(String topic) { return 10; } }' &&
    stub org.apache.kafka.common 'interface Configurable { void configure(java.util.Map<String, ?> configs); }' &&
    stub org.apache.kafka.clients.producer 'interface Partitioner extends org.apache.kafka.common.Configurable,
      java.io.Closeable { void close(); int partition(String topic, Object key, byte[] keyBytes, Object value,
      byte[] valueBytes, org.apache.kafka.common.Cluster cluster); }' &&
    stub org.apache.spark.sql.api.java \
      'interface UDF1<A, R> extends java.io.Serializable { R call(A a) throws Exception; }' &&
    stub org.apache.spark.sql.api.java \
      'interface UDF2<A, B, R> extends java.io.Serializable { R call(A a, B b) throws Exception; }' &&
    mkdir "$room/stubs/test" && cat >"$room/stubs/test/KeyPartitioner.java" <<JAVA &&
package test;
import $package.*;
import org.apache.kafka.common.Cluster;
$(blocks "$folder/README.md" java KeyPartitioner)
JAVA
    cat >"$room/stubs/test/Main.java" <<JAVA && compile "$room/hosts" "$jar" "$room/stubs" &&
package test;
import $package.*;
import org.apache.spark.sql.api.java.*;
class Main {
    enum DataTypes { LongType }
    static class Registry {
        void register(String name, UDF1<byte[], Long> f, DataTypes type) throws Exception {
            assert f.call("hello".getBytes()) == 3327445792987248966L && f.call(null) == null;
        }
        void register(String name, UDF2<String, Long, Long> f, DataTypes type) throws Exception {
            assert f.call("user", 4711L) == Long.parseUnsignedLong("16744121781784268497");
            assert f.call(null, null) != null;
        }
        Registry udf() { return this; }
    }
    public static void main(String[] words) throws Exception {
        Registry spark = new Registry();
        $(blocks "$folder/README.md" java udf)
        byte[] five = {5, 0, 0, 0, 0, 0, 0, 0};
        KeyPartitioner partitioner = new KeyPartitioner();
        int found = partitioner.partition("", null, five, null, null, new org.apache.kafka.common.Cluster());
        assert found == 8 : "16027968813187602694 is in partition 8, not " + found;
        partitioner.partition("", null, null, null, null, new org.apache.kafka.common.Cluster());
        partitioner.close();
    }
}
JAVA
    java -ea -cp "$jar:$room/hosts" test.Main
}

contains_the_licences() {
  (cd "$room" && jar -xf "$jar" META-INF) && has_the_licences "$room/META-INF"
}

# Checks that all classes but those for later JDKs are for the oldest JDK that README.md names: JDK 11 reads major
# version 55.
is_for_the_jdk_of_the_page() {
  local jdk
  jdk=$(sed -n 's/^The package is plain Java for JDK \([0-9]*\) and later.*/\1/p' "$folder/README.md") &&
    rm -rf "$room/unpacked" && mkdir "$room/unpacked" && (cd "$room/unpacked" && jar -xf "$jar") &&
    find "$room/unpacked" -name versions -prune -o -name '*.class' -exec javap -v {} + | grep 'major version' |
    sort -u | diff - <(echo "  major version: $((jdk + 44))")
}

# Checks by the calls in its code that a stream copies whole arrays: byte by byte, short pieces would take twice as
# long.
copies_whole_arrays() {
  [ "$(javap -c -p -cp "$jar" "$package.RapidhashStream" |
    grep -cE 'Method (java/lang/System.arraycopy|java/nio/ByteBuffer.get:\(\[B|append):?')" -eq 11 ]
}

# Checks by that code that each of the four loads of 4 or 8 bytes is a single one, and that those of a byte read one:
# byte by byte, short messages would take longer.
loads_whole_words() {
  javap -c -p -cp "$jar" "$package.Primitives" >"$room/loads" &&
    for load in 'VarHandle.get:' 'baload' 'ByteBuffer.get:(I)B'; do grep -cF "$load" "$room/loads"; done |
    diff - <(printf '%s\n' 4 1 1)
}

needs javac java jar /usr/share/java/junit4.jar
prepare_by make -s -C "$top" jar
prepare_by compile "$room/tests" "$jar:$junit" "$folder/src/test"

try java_licences contains_the_licences
try java_module runs_as_a_module
try java_pom pom_is_current
try java_secrets tells_secrets_apart
try java_version is_for_the_jdk_of_the_page
try java_copies copies_whole_arrays
try java_loads loads_whole_words
try java_buffers "$top/scripts/java_buffers" --check
# No machine here has the other byte order: no source may ask for that of the machine.
try java_byte_order bash -c '! grep -rnE "nativeOrder|Unsafe" "$1"' - "$folder/src/main"
for test in "$folder"/src/test/java/example/yervound/rapidhash/*Test.java; do
  try "java_$(basename "$test" .java)" passes "$(basename "$test" .java)"
done
try java_later_product adds_the_later_product
try java_formulas compiles_formulas
try java_calls_of_the_page runs_the_page toDecimal RapidhashTest
try java_shards_of_the_page runs_the_page firstHash RapidhashShardsTest
try_with java_guava /usr/share/java/guava.jar works_with_guava
try java_other_programs works_in_other_programs
plugins=/usr/share/maven-repo/org/apache/maven/plugins/maven
try_with java_maven "mvn $plugins-compiler-plugin/3.10.1 $plugins-resources-plugin $plugins-jar-plugin \
  $plugins-surefire-plugin" builds_by_maven
try java_page works_as_its_page_says "$folder/README.md"

finish
