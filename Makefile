# Everything goes by rt, the command of the Rattle kit. Nothing here needs the network, and only `install` installs.

.PHONY: all quick library install uninstall release tag pictures demo test soak profile bench clean

PREFIX ?= /usr/local

# Proves the crates that the program stands on, and leaves it as bin/mrjob.
all:
	@scripts/build.py

bin/mrjob:
	@scripts/build.py

# The program without its proofs, as bin/mrjob, in about two minutes. `mrjob --version` says so.
quick:
	@scripts/quick.py

# Proves the crates that the C library stands on, and leaves it as lib/libmrjob.a and lib/libmrjob.so.
library:
	@scripts/library.py

lib/libmrjob.a:
	@scripts/library.py

# The program with its manual pages, completions, scripts, docs and examples, and where `make library` has left it the C
# library, below DESTDIR and PREFIX; and just these taken away.
install: bin/mrjob
	@scripts/install.py "$(DESTDIR)$(PREFIX)"

uninstall:
	@scripts/install.py --undo "$(DESTDIR)$(PREFIX)"

# Of a proved build, what is handed out: a tarball, a Debian package, the wheel and the sdist, in dist/.
release: all library
	@scripts/release.py

# A git tag of the version that the file VERSION has, where nothing is left to be committed.
tag:
	@test -z "$$(git status --porcelain)" || { echo "some changes are not committed, so nothing was tagged"; exit 1; }
	@git tag -a "v$$(cat VERSION)" -m "mrjob $$(cat VERSION)"

# The pictures of the docs, of the samples' texts with their answers.
pictures:
	@scripts/pictures.py

# The main job on examples/, by bin/mrjob, or by the program built without its proofs, which then is left there.
demo:
	@scripts/demo.py

# The whole gate. The last line is 'N passed, M failed'.
test:
	@scripts/gate.sh

# Made jobs and scripts for minutes, under schedules that nobody chose, once the gate has built the tests of jobs.
soak: bin/mrjob
	@scripts/soak.py

# Each crate's processor seconds for its proof, its tests and its edits.
profile:
	@scripts/gate_profile.py

# Each benchmark of bench/, on the program of bin/ and the library of lib/.
bench: bin/mrjob lib/libmrjob.a
	@scripts/bench.sh

clean:
	rm -rf bin lib dist crates/*/out
