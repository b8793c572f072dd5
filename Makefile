# Builds the program, shows it and measures it. Each target calls rt, what rt built, or a driver of bench/.
PREFIX ?= /usr/local

.PHONY: graph demo install manual bench bench-logs bench-appends bench-turns bench-commits bench-blocks bench-parts bench-durable bench-crashes bench-workers bench-waits bench-peers soak

# Proves and builds the program, and leaves it as ./graph.
graph:
	@./build

# Makes a log, runs three scripts on it, the last by two workers, dumps it and checks it, and says what each line means.
demo: graph
	@./demo

# Puts the program and its manual page under PREFIX, below DESTDIR.
install: graph manual
	install -D -m 755 graph $(DESTDIR)$(PREFIX)/bin/graph
	install -D -m 644 docs/graph.1 $(DESTDIR)$(PREFIX)/share/man/man1/graph.1

# Checks that the manual page has the program's exit statuses.
manual:
	@python3 docs/check_manual.py

# Measures the program against sqlite3 and wc, which must be installed.
bench: graph
	python3 bench/bench.py ./graph

# Measures the decoding of logs against sqlite3, which must be installed.
bench-logs: graph
	@cd crates/decode_trial && rt run <stdin >/dev/null 2>build.log || { cat build.log; exit 1; }
	@rm -f crates/decode_trial/build.log
	python3 bench/logs.py crates/decode_trial/out/decode_trial ./graph

# Measures runs that leave a log, against a bare loop of writes and syncs and sqlite3, which must be installed.
bench-durable: graph
	python3 bench/durable.py ./graph

# Kills runs at random moments, damages logs, and lets files and streams refuse, and judges what is left.
bench-crashes: graph
	python3 bench/kill.py ./graph
	python3 bench/damage.py ./graph
	python3 bench/refused.py ./graph

# Measures appends to a log on a file against a bare loop of writes and syncs; it wants cc.
bench-appends:
	@cd crates/append_trial && rt run -- 3 >/dev/null 2>build.log || { cat build.log; exit 1; }
	@rm -f crates/append_trial/build.log crates/append_trial/appends.log
	python3 bench/appends.py crates/append_trial/out/append_trial

# Measures turns between threads against atomic exchanges that nobody contends; it wants cc.
bench-turns:
	@cd crates/turn_trial && rt run -- 3 4 1 1000 >/dev/null 2>build.log || { cat build.log; exit 1; }
	@rm -f crates/turn_trial/build.log
	python3 bench/turns.py crates/turn_trial/out/turn_trial

# Measures what commits by several threads cost without a graph: turns and appends alone, in C; it wants cc.
bench-commits:
	python3 bench/commits.py

# Measures work on the block of an edge log against C over structs and bytes; it wants cc.
bench-blocks:
	@cd crates/block_trial && rt run -- each 100 8 half 2 >/dev/null 2>build.log || { cat build.log; exit 1; }
	@rm -f crates/block_trial/build.log
	python3 bench/blocks.py crates/block_trial/out/block_trial

# Measures transactions through the parts of a store against C over a hash map and arrays; it wants cc.
bench-parts:
	@cd crates/part_trial && rt run -- load 100 100 1000 0 >/dev/null 2>build.log || { cat build.log; exit 1; }
	@rm -f crates/part_trial/build.log
	python3 bench/parts.py crates/part_trial/out/part_trial

# Measures a script that 1, 2 and 4 workers run.
bench-workers: graph
	python3 bench/scripts.py ./graph

# Tells where the workers of that script wait; it wants cc.
bench-waits: graph
	python3 bench/waits.py ./graph

# Measures the store against LMDB, RocksDB, SQLite and bare C, writes bench/RESULTS.md and docs/peers.svg; it wants g++,
# liblmdb-dev, librocksdb-dev and libsqlite3-dev.
bench-peers: graph
	@cd crates/store_trial && rt run -- trial.log 1 8 0 0 >/dev/null 2>build.log || { cat build.log; exit 1; }
	@rm -f crates/store_trial/build.log crates/store_trial/trial.log
	python3 bench/peers.py crates/store_trial/out/store_trial ./graph

# Runs 64 workers on one vertex for so many seconds, kills the runs at random moments, and counts the commits that are lost.
SECONDS ?= 60
soak: graph
	python3 bench/soak.py ./graph $(SECONDS)
