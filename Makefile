# The lines that begin with `#:` are what `make help` prints.
#: make run               proves what the program needs, builds it, and runs it on the sample store; STORE=FOLDER for another
#: make test              the gate: proves every crate, tries every must-fail edit, and runs every test; a second time much sooner
#: make library           proves and builds target/staticlib/libkullneyra.a, for C, C++, Rust and Go
#: make shared            builds target/sharedlib/libkullneyra.so of it, for programs that link it at run time, and for Python
#: make oci               builds target/bin/kullneyra-oci, the command over OCI image layouts and the folders of registries
#: make pause             builds target/bin/pause, the program that stops a collection and goes on
#: make course            opens the page that draws a run, turn by turn
#: make deal              builds what deals the cards and seeds of a case, for tools/case.py
#: make sheets            draws the stored sheets of docs/course anew, and its finished page
#: make install           installs library, header and commands below PREFIX=/usr/local; DESTDIR is put before it, for packages
#: make uninstall         takes away what make install put there, with the same PREFIX and DESTDIR
#: make deb               makes Debian packages, in target/deb
#: make compare           compares the library with the reference on more cases than the gate does: CASES=5000000 SEED=2
#: make bench             measures at four places of the code, some minutes; its tables and plots go to target/bench/
#: make bench-instructions counts the instructions of each call and finds the stack that it takes
#: make oci-stress        800 pushes beside prunes and 200 kills, some minutes
#: make clean             removes all that was proved and built here
#:
#: What is missing is told before anything is proved. What was proved is proved again only where its files have changed.
.PHONY: help test run programs library from-ci shared packaged deb oci oci-stress steps deal course sheets pause install uninstall clean compare bench bench-instructions FORCE
.DEFAULT_GOAL = help

# A path may have spaces in it: none is a prerequisite, and each is quoted.
CASES ?= 5000000
SEED ?= 2
CARGO = CARGO_TARGET_DIR="$(CURDIR)/target/cargo" cargo
RELEASE = --offline --quiet --release --manifest-path runtime/rust/Cargo.toml

# Where `make install` puts things; DESTDIR is put before it, for packages.
PREFIX ?= /usr/local
LIBDIR ?= $(PREFIX)/lib
DESTDIR ?=

# The version, in its one place.
VERSION := $(shell cat VERSION)
MAJOR := $(firstword $(subst ., ,$(VERSION)))
SHARED := target/sharedlib/libkullneyra.so.$(VERSION)

# The store that `make run` collects: a folder with store.cat and order.run.
STORE ?= target/sample

help:
	@sed -n 's/^#: \{0,1\}//p' Makefile

test:
	@tools/gate

run: target/sample/store.cat
	@tools/need run rt python3
	@tools/prove --as run --log target/run.log collect
	@tools/case.py run "$(STORE)"

target/sample/store.cat: samples/a.txt tools/case.py
	@tools/case.py make samples/a.txt target/sample

# The programs, proved and built.
programs:
	@tools/prove --as programs --log target/programs.log collect deck

# tools/library decides by what the files hold, and leaves the archive alone where nothing has changed.
library: target/staticlib/libkullneyra.a

target/staticlib/libkullneyra.a: FORCE
	@tools/library

FORCE:

# The gate's: what rt ci has just proved is put together, and proved no second time.
from-ci:
	@tools/prove --from-ci --as programs --log target/programs.log collect deck
	@tools/library --from-ci

# The same objects in a shared library: its name has the major version, and it exports the calls and nothing else. Its other names are
# copies here, since rt ci refuses a checkout with a link in it; where it is installed they are links.
shared: $(SHARED)

$(SHARED): target/staticlib/libkullneyra.a runtime/kullneyra.map VERSION
	@tools/need shared gcc
	@mkdir -p target/sharedlib
	@gcc -shared -o $@.new -Wl,--whole-archive target/staticlib/libkullneyra.a -Wl,--no-whole-archive -Wl,-soname,libkullneyra.so.$(MAJOR) \
	    -Wl,--version-script=runtime/kullneyra.map -Wl,-z,defs -Wl,-z,relro -Wl,-z,now -Wl,-z,noexecstack
	@mv $@.new $@
	@cp $@ target/sharedlib/libkullneyra.so.$(MAJOR)
	@cp $@ target/sharedlib/libkullneyra.so

# The command over an OCI image layout or the folder of a registry; needs Go and the Debian packages that runtime/go/packages lists.
oci:
	@tools/need oci rt ar gcc -- runtime/go/packages
	@tools/need oci go
	@$(MAKE) --no-print-directory library
	@. tools/go-env && cd runtime/go && go build -o ../../target/bin/kullneyra-oci ./cmd/kullneyra-oci

oci-stress: oci
	@PYTHONDONTWRITEBYTECODE=1 tests/go/stress
	@PYTHONDONTWRITEBYTECODE=1 tests/registry/stress

# The programs behind the course: `steps` takes the turns of a case one by one, `deal` deals its cards and seeds.
steps: target/course/steps
deal: target/course/deal

target/course/%: runtime/c/%.c runtime/include/kullneyra.h target/staticlib/libkullneyra.a
	@tools/need course gcc
	@mkdir -p target/course
	@gcc -std=c11 -O2 -Wall -Wextra -Werror -pedantic -Iruntime/include $< target/staticlib/libkullneyra.a -o $@.new
	@mv $@.new $@

# The page of the course: a run turn by turn, on 127.0.0.1.
course:
	@tools/need course rt ar gcc python3
	@command -v dot >/dev/null || echo "course: without the map of the store: it needs Graphviz; on Debian, type: sudo apt-get install graphviz" >&2
	@$(MAKE) --no-print-directory steps deal
	@tools/course.py serve

sheets:
	@tools/need sheets rt ar gcc python3 dot
	@$(MAKE) --no-print-directory steps deal
	@rm -f docs/course/*.svg
	@for case in docs/course/*.txt; do tools/course.py sheet "$$case" "$${case%.txt}.svg" || exit 1; done
	@tools/course.py page docs/course/a.txt docs/course/a.html

# The program that stops a collection and goes on; needs Debian's librust-sha2-dev (tests/runtime/packages).
pause:
	@tools/need pause rt ar gcc cargo -- tests/runtime/packages
	@$(MAKE) --no-print-directory library
	@$(CARGO) build --offline --quiet --release --manifest-path runtime/rust/pause/Cargo.toml --config runtime/rust/pause/debian.toml
	@mkdir -p target/bin && cp target/cargo/release/pause target/bin/pause.new && mv target/bin/pause.new target/bin/pause

# Commands that need packages which are not there are left out, and that is told before anything is proved.
install:
	@tools/need install rt ar gcc python3
	@commands=$$(tools/install commands) && \
	    $(MAKE) --no-print-directory library shared programs $$commands && \
	    PREFIX="$(PREFIX)" LIBDIR="$(LIBDIR)" DESTDIR="$(DESTDIR)" tools/install put $$commands

uninstall:
	@PREFIX="$(PREFIX)" DESTDIR="$(DESTDIR)" tools/install take

# Debian packages by debhelper (debian/), of what is built; tests/install/packages lists what that needs.
deb:
	@tools/need deb rt ar gcc cargo python3 -- runtime/go/packages tests/runtime/packages tests/install/packages
	@$(MAKE) --no-print-directory packaged
	@tools/deb

# All that the packages hold.
packaged: library shared programs oci pause steps deal

clean:
	rm -rf target crates/*/out runtime/rust/target runtime/rust/pause/target tests/runtime/own/target
	find tools tests runtime -name __pycache__ -prune -exec rm -rf {} +

compare:
	@tools/need compare rt ar cargo
	@$(MAKE) --no-print-directory library
	$(CARGO) build $(RELEASE) --package compare
	target/cargo/release/compare $(CASES) $(SEED)

# Every ratio is the median over four places of the code; containerd and SciPy are measured beside ours where they are installed.
bench:
	@tools/need bench rt ar gcc cargo
	@$(MAKE) --no-print-directory library
	$(CARGO) build $(RELEASE) --package bench
	tools/bench target/bench

# The instructions of each call, by valgrind, and the stack that it takes.
bench-instructions:
	@tools/need bench-instructions rt ar gcc cargo python3 valgrind
	@$(MAKE) --no-print-directory library
	@$(CARGO) build $(RELEASE) --package bench
	@tools/instructions
