# Files and seeds of `make compare`.
FILES ?= 1500
SEEDS ?= 1 2
SECOND = second/target/release
PROGRAM = crates/kicsurvad/out/kicsurvad

.PHONY: run program test compare bench examples vectors second

# Proves and builds the program, and runs it on a shipped example.
run: program
	$(PROGRAM) check < examples/first.orders

# Proves and builds the program. rt builds a program only to run it, so it runs on an empty file.
program:
	cd crates/kicsurvad && rt run -- check < /dev/null > /dev/null

# The gate.
test:
	.ci/run

second:
	cargo build --release --quiet --manifest-path second/Cargo.toml

# Runs both programs on generated files and says how many answers were alike: make compare FILES=5000 SEEDS="3 4"
compare: second program
	$(SECOND)/compare $(PROGRAM) $(SECOND)/second $(FILES) $(SEEDS)

# Times both programs on 100,000 records.
bench: second program
	mkdir -p target
	$(SECOND)/compare write 100000 5 > target/bench.orders
	time $(PROGRAM) check < target/bench.orders > target/bench.first
	time $(SECOND)/second check < target/bench.orders > target/bench.second
	cmp target/bench.first target/bench.second

# Makes the shipped examples from their text.
examples: second
	for f in examples/*.txt; do $(SECOND)/make_orders < $$f > $${f%.txt}.orders; done

# Makes the order file on which the gate runs the program, and has the second program say what must be printed.
vectors: second
	$(SECOND)/compare write 400 20261117 > crates/kicsurvad/stdin
	$(SECOND)/second check < crates/kicsurvad/stdin > crates/kicsurvad/stdout
