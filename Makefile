# Both need the Rattle kit (rt); `make test` needs cargo and a C compiler too. Nothing is fetched.
.PHONY: example test

# Proves and builds the program, then runs it on the small shop at minute 480.
example:
	tools/build
	target/bin/release_list < crates/release_list/stdin

# All tests; the last line is `N passed, 0 failed`.
test:
	.ci/run
