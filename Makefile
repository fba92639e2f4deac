# Needs bash, make, python3 (3.8 or later) and the Rattle toolchain, whose command is rt.
.PHONY: build install package help demo try examples check rows since new test gate gate-cost wrong-bodies

# Proves what this computer has not kept, builds the program, and prints its path.
build:
	@scripts/build

# Puts the proved program into PREFIX/bin as deparohi.
install:
	@scripts/install "$(PREFIX)"

# Puts the proved program into a Debian package, with its manual page, completions and licence, and tests that it installs.
package:
	@package=$$(scripts/package) && scripts/test-package "$$package" >&2 && echo "$$package"

# The minutes are of four shared processors of two cores, beside other work.
help:
	@echo "make               prove and build the program, and print its path (hours if nothing is kept, a minute or two after the gate)"
	@echo "make install       put the proved program, the command deparohi and the importer below PREFIX, PREFIX=DIR names the place"
	@echo "make package       put the proved program into a Debian package in out/, and try to install it there (as make)"
	@echo "make demo          run the worked example, unproved, for a first look (5 minutes the first time, then a second)"
	@echo "make try           run the program on your own files, unproved: ARGS=\"run DOCUMENT INPUTS\" has its words (5 minutes the first time, then a second)"
	@echo "make examples      run each of examples/ by the unproved program, and compare its answer (as make try)"
	@echo "make check         prove a crate and those below it over kept work: NAME=crate (10 seconds to minutes)"
	@echo "make rows          answer a crate's worked rows by the unproved program, and show what differs: NAME=test_values"
	@echo "make since         which crates changed since a revision, what stands above them, what to run: REV=commit (a second)"
	@echo "make new           begin a crate: NAME=name, ON=\"crate ..\" are those that it stands on (a second)"
	@echo "make test          each row, importer test, example and mistake, a package, the scripts, all with the program compiled with checks, UNPROVED"
	@echo "                   (20 minutes from nothing, 15 if the program is kept)"
	@echo "make gate          the whole gate: every proof that is not kept, the wrong bodies in must-fail/, the programs, and what make test runs with the"
	@echo "                   proved program (minutes over kept proofs, about two and a quarter hours from nothing: docs/work/gate.md)"
	@echo "make gate-cost     what the last gate cost, by crate and part (a second)"
	@echo "make wrong-bodies  try all wrong bodies over what \`rt check\` keeps (several hours); NAME=crate: those of one crate (3 to 40 minutes), NAME=crate/edit: one"

demo:
	@scripts/demo

# Runs the unproved program in the folder that make was called from, also by make -C.
try:
	@cd "$(or $(PWD),$(CURDIR))" && "$(CURDIR)/scripts/try" $(ARGS)

examples:
	@scripts/examples scripts/try

check:
	@scripts/check "$(NAME)"

rows:
	@scripts/rows "$(NAME)"

since:
	@scripts/since "$(REV)"

new:
	@scripts/new "$(NAME)" $(ON)

# Nothing is proved by this.
test:
	@scripts/test

# Proves everything, and runs the same tests with the proved program.
gate:
	@scripts/gate

gate-cost:
	@scripts/gate-cost

wrong-bodies:
	@scripts/wrong-bodies $(NAME)
