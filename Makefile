.PHONY: help test demo lib install compare bench believed

# Says what there is to make.
help:
	@tools/help

# Proves every crate, tries the edits that must be refused, both by `rt ci`, and runs the tests. Ends in 'N passed, 0 failed'.
test:
	@tools/test

# Builds the program `list`, and prints its listing of three problems, each beside the problem in words.
demo:
	@tools/demo

# Proves and builds the library: target/lib has libpallihun.a, libpallihun.so and pallihun.pc.
lib:
	@tools/lib

# Puts the header, the library and the program `list` below PREFIX (below DESTDIR/PREFIX, for packages).
PREFIX ?= /usr/local
install: lib
	@tools/install "$(PREFIX)" "$(DESTDIR)"

# Holds the proved programs and the library against the second program for longer: on TABLES tables of the seed SEED, for each comparison.
SEED ?= 2
compare: TABLES ?= 20000
compare:
	@tools/prove list examples
	@tools/lib
	cargo build --manifest-path tests/Cargo.toml --release --offline --locked
	PALLIHUN_LIB_DIR=$(CURDIR)/target/lib cargo build --manifest-path tests/in_process/Cargo.toml --release --offline --locked
	@tools/compare --seed $(SEED) --count $(TABLES)

# Times the library on the tables that bench/tables.py writes, or on those of the folder TABLES. GROWTH=1: tables that grow; LENT=N: so many
# words are lent; ROUNDS=N: so many rounds, of which the least counts. In the same rounds, with ratios: with BEFORE=PROGRAM the program
# bench/target/release/bench of another checkout, and with BASELINE=PROGRAM another program for the same job. The baseline alone is called
# with --plain, without looking ahead, on tables with `hopeless` in their names; with AHEAD=1 it is not either.
bench:
	@tools/bench $(if $(TABLES),--tables "$(TABLES)") $(if $(GROWTH),--growth) $(if $(LENT),--lent "$(LENT)") $(if $(ROUNDS),--rounds "$(ROUNDS)") \
		$(if $(BEFORE),--before "$(BEFORE)") $(if $(BASELINE),--baseline "$(BASELINE)") $(if $(AHEAD),--ahead)

# What a reader has to believe: the definitions that promises are made of, and the contracts of the public operations. It is kept in
# docs/BELIEVED.txt.
believed:
	@tools/believed
