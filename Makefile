# Builds, shows and checks the proved tick clock. `make help` lists what can be made, from README's table.
.POSIX:

all: kit
	rt all check
	sh tools/build.sh replay replay_long tickclock_c
	sh tests/same.sh

help:
	@awk -F ' *[|] *' '/^[|] `make/ { gsub(/`/, ""); printf "%-26s %s (%s)\n", $$2, $$3, $$4 }' README.md

# The toolchain's `rt` must be on the PATH.
kit:
	@sh tools/kit.sh > /dev/null

# Holds the leaves to upstream's own answers and the replay of traces to 01's lines, and says what agrees.
cases: kit
	sh tools/build.sh cases trace_cases
	sh tools/run.sh cases crates/cases/stdin
	sh tools/run.sh trace_cases < crates/trace_cases/stdin

# Replays a trace; with no TRACE, 01's printed case. Only its lines go to standard output.
# It goes by the environment, so that no shell takes a part of its name for a command.
TRACE = traces/printed.trace
export TRACE
replay replay_long: kit
	@sh tools/quick.sh $@ "$$TRACE"

# The archive for Cortex-M: target/firmware/*/libtickclock.a, with the kit alone.
firmware: kit
	sh tools/firmware.sh

# Tries those archives, and the driver in firmware/example, on QEMU's boards.
qemu: kit
	sh tests/qemu.sh

test: kit
	sh tests/public.sh
	sh tests/specs.sh
	sh tests/units.sh
	sh tests/programs.sh
	sh tests/ci.sh

# Goes on comparing with the reference until so many records were compared; another SEED makes other traces.
N = 1000000
SEED = 100
fuzz: kit
	sh tools/build.sh replay replay_long
	sh tests/reference.sh "$(N)" "$(SEED)" 10

# Wrong programs in which definition, contract and code agree: a statement has to shut out each.
together: kit
	sh tests/together.sh

# Times a million records against the reference, and counts instructions.
bench: kit
	sh tools/bench.sh

clean:
	rm -rf target crates/*/out

.PHONY: all help kit cases replay replay_long firmware qemu test fuzz together bench clean
