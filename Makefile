# README.md says what each command is for. The gate's last line is its verdict, so its recipe prints nothing of its own.
.PHONY: run hold from_csv to_csv picture test check compare bench stack fmt

# The sequence that the program is run on: make run SEQ=file
SEQ = examples/first-look/sequence.seq

run:
	@tests/build floor
	@crates/floor/out/floor < '$(SEQ)'

# Which stickers may be printed after a sequence: make hold SEQ=file
hold:
	@tests/build hold
	@crates/hold/out/hold < '$(SEQ)'

# The CSV text that is read: make from_csv CSV=file > sequence.seq
CSV = examples/first-look/table.csv

from_csv:
	@tests/build from_csv
	@crates/from_csv/out/from_csv < '$(CSV)'

# A sequence as a CSV text: make to_csv SEQ=file > plan.csv
to_csv:
	@tests/build to_csv
	@crates/to_csv/out/to_csv < '$(SEQ)'

# The run of a sequence, drawn: make picture SEQ=file > picture.svg
picture:
	@cargo build --release --offline --quiet --manifest-path tests/plain/Cargo.toml --target-dir target/plain
	@target/plain/release/plain trace < '$(SEQ)' | tools/picture

test:
	@tests/gate

check:
	@rt all check

# How many sequences are made; SEED=.. makes the same ones again.
COUNT = 20000

compare:
	@tests/build floor dump hold stickers
	@tests/compare --count $(COUNT) $(if $(SEED),--seed $(SEED))

# How often each row is measured; the best counts.
ROUNDS = 50

bench:
	@tests/bench/run $(ROUNDS)

# How much stack the public calls take.
stack:
	@tests/build floor hold dump stickers handed calls from_csv to_csv
	@tests/stack/run

fmt:
	@for crate in crates/*; do (cd $$crate && rt fmt) || exit 1; done
