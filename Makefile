# make run plays the stored recording, and then the one that sendburst writes of its stored messages; make test is the gate; make reference
# makes the stored outputs anew, by Python 3, and compares; make memory lets each allocation of both programs fail, by Python 3 and cc.
READBURST = crates/readburst/out/readburst
SENDBURST = crates/sendburst/out/sendburst
RECORDING ?= crates/readburst/stdin

.PHONY: run test reference memory

run: $(READBURST) $(SENDBURST)
	@$(READBURST) < $(RECORDING)
	@$(SENDBURST) $$(cat crates/sendburst/args) < crates/sendburst/stdin | $(READBURST)

# Proves the program, builds it, and runs it once on what is stored for it.
$(READBURST) $(SENDBURST): $(shell find crates -path '*/out' -prune -o \( -name '*.rt' -o -name '*.antt' \) -print) crates.txt
	@cd $(@D)/.. && rt run -- $$(cat args 2> /dev/null) < stdin > /dev/null

test:
	.ci/run

reference:
	python3 tools/reference.py play < crates/readburst/stdin | cmp - crates/readburst/stdout
	python3 tools/reference.py send $$(cat crates/sendburst/args) < crates/sendburst/stdin | cmp - crates/sendburst/stdout
	python3 tools/reference.py vectors < crates/vectors/stdin | cmp - crates/vectors/stdout

memory: $(READBURST) $(SENDBURST)
	@python3 tools/want_of_memory.py
