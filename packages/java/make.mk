# The jar. If the JDK is 18 or later, the jar also has the class of src/java18, for these JDKs.
jar = build/yervound-rapidhash-1.0.0.jar
later = 18
licences = -C . LICENSE-MIT -C . LICENSE-APACHE -C . NOTICE
described = build/java/META-INF/maven/example.yervound/yervound-rapidhash
javac = javac -Xlint:all -Xdoclint:all,-missing -Werror
jar: ; $(alone) $(jar)
# From JDK 17 on, a jar may have the date of its commit.
jar_date = $(shell jar --help-extra 2>/dev/null | grep -q -- --date= && date -u -d @$(epoch) +--date=%Y-%m-%dT%H:%M:%SZ)

# The sources and the pages of the calls, as registries want them beside the jar.
javadoc: ; $(alone) javadoc-alone
javadoc-alone: $(jar)
	@rm -rf build/javadoc && javadoc -quiet -notimestamp -Xdoclint:all,-missing --release 11 -d build/javadoc \
	  $$(find packages/java/src/main/java -name '*.java')
	@umask 022 && jar --create $(jar_date) --file $(jar:.jar=-javadoc.jar) -C build/javadoc . $(licences)
	@umask 022 && jar --create $(jar_date) --file $(jar:.jar=-sources.jar) -C packages/java/src/main/java . \
	  $(licences)

$(jar): LICENSE-MIT LICENSE-APACHE NOTICE packages/java/pom.xml packages/java/make.mk \
    $(shell find packages/java/src/main packages/java/src/java18 -name '*.java' 2>/dev/null)
	@command -v javac >/dev/null || { echo 'make: javac, of a JDK, is not on PATH' >&2; exit 2; }
	@rm -rf build/java build/java18 && mkdir -p $(described)
	@$(javac) --release 11 -d build/java $(filter packages/java/src/main/%.java,$^)
	@cp LICENSE-MIT LICENSE-APACHE NOTICE build/java/META-INF && cp packages/java/pom.xml $(described)
	@umask 022 && jar --create $(jar_date) --file $@.new --module-version 1.0.0 -C build/java .
	@if [ "$$(javac -version | sed 's/[^0-9]*\([0-9]*\).*/\1/')" -ge $(later) ]; then \
	    $(javac) --release $(later) -d build/java18 $(filter packages/java/src/java18/%.java,$^) && \
	    jar --update $(jar_date) --file $@.new --release $(later) -C build/java18 .; \
	else echo 'make: the jar has no class for JDK $(later) and later, which needs such a javac' >&2; fi
	@mv -f $@.new $@
