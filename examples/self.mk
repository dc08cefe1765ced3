# Builds, checks and releases this project with its own shell in place of sh: make -f examples/self.mk [target]
#
# A recipe is one script of rc, which ends at the first command that fails. In it $$x is the variable x of the shell,
# and $(X) one of make. If there is no ./rc yet, the Makefile puts it there.

RT = rt
RELEASE = release/rc-x86_64-linux
BUILT = crates/rc_main/out/rc_main.static
CHECKER = release/rccheck-x86_64-linux
BUILT_CHECKER = crates/rccheck/out/rccheck.static
TRACER = release/rctrace-x86_64-linux
BUILT_TRACER = crates/rctrace/out/rctrace.static

# The shell does not read PATH, so make hands it on as the list $path, with byte 1 between its members.
export path := $(subst :,$(shell printf '\001'),$(PATH))
SHELL = $(CURDIR)/rc
.SHELLFLAGS = -e -c
.ONESHELL:

check: rc
	for(test in check surprises idioms) ./tests/$$test ./rc

rc: SHELL = /bin/sh
rc: .SHELLFLAGS = -c
rc:
	$(MAKE) rc

# The new program takes the place of the old one at once: no moment is without a shell.
prove: rc
	cd crates/rc_main
	$(RT) run </dev/null
	cd ../rccheck
	$(RT) run -- data/fine.rc
	cd ../rctrace
	$(RT) run </dev/null
	cd ../..
	RT=$(RT) ./release/link
	install -m 755 $(BUILT_CHECKER) rccheck
	install -m 755 $(BUILT_TRACER) rctrace
	install -m 755 $(BUILT) rc.new
	mv rc.new rc

# The hash is taken before the build, so that sources that change meanwhile don't fit it. A backquote that fails ends no
# script, so its status is tested.
release: rc
	untracked=`{git ls-files --others --exclude-standard -- ':(glob)crates/*/src/**'}
	~ $$status '' || exit 1
	if(! ~ $$#untracked 0) { echo git add first: $$untracked; exit 1 }
	rm -f $(RELEASE) $(CHECKER) $(TRACER) release/objects
	./release/hash >release/sources
	cd crates/rc_main
	$(RT) run </dev/null
	cd ../rccheck
	$(RT) run -- data/fine.rc
	cd ../rctrace
	$(RT) run </dev/null
	cd ../..
	RT=$(RT) ./release/link
	install -m 755 $(BUILT) $(RELEASE)
	install -m 755 $(BUILT_CHECKER) $(CHECKER)
	install -m 755 $(BUILT_TRACER) $(TRACER)
	RT=$(RT) ./release/parts | cut -d ' ' -f 1,2 >release/objects || exit 1

.PHONY: check prove release
