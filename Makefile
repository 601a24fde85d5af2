# The program is proved, then built by the toolchain's command `rt`.
SCENARIO ?= examples/count.toml
PREFIX ?= /usr/local
PROGRAM := crates/mailrun/out/mailrun
KEPT := crates/mailrun_kept/out/mailrun_kept
TRACE := crates/mailtrace/out/mailtrace
EXPLORE := crates/mailexplore/out/mailexplore

.PHONY: run trace prove docs quick examples test refuse check wrong-bodies bench instructions compare install proved
.DEFAULT_GOAL := run

# Runs a scenario and prints its report: make run [SCENARIO=path]. Where the program is not proved yet, an unproved build of its
# sources runs. (Make ends with 2 where the run fails; tools/run ends with the program's own status.)
run:
	@tools/run $(SCENARIO)

# The same, and prints the trace: what came to each actor and what became of it (docs/TRACE.md). FORMAT is text, json, svg or html.
trace:
	@tools/run --trace $(if $(FORMAT),--format $(FORMAT)) $(SCENARIO)

# Proves the two programs, or another crate, with all that they stand on, and builds them: make prove [CRATE=name]. What was proved before on
# this machine, in any repository, takes seconds.
prove:
	@tools/prove $(CRATE)

# Writes the API reference, pages that a browser opens without a network: out/docs/index.html.
docs:
	@tools/api_reference

# What needs no proof: what the documents name, the pictures, the commands that need no program, the tools that no other check calls, the list
# of the wrong bodies, the API reference, the schema, the scenarios as they stand, the examples and whole runs beside a second reader, each
# scenario by an unproved build, and the library in a repository of its own.
quick:
	tools/documents --check
	tools/draw_layers --check
	tools/draw_states --check
	tools/check_commands
	tools/check_tools
	tools/check_wrong_bodies
	tools/check_api_reference
	tools/check_schema
	tools/check_scenarios
	tools/check_traces
	tools/check_trace_forms
	tools/try_scenarios
	tools/check_embed

# Runs each scenario of examples/, and sees to it that the report is printed that stands beside it.
examples: proved
	@tools/check_scenarios $(PROGRAM) examples

# The gate: what needs no proof, which is what the documents name, the pictures, the tools that no other check calls, the list of the wrong
# bodies, the API reference, the schema and the scenarios as they stand; every proof from nothing, the must-fail edits, the tests, and the
# programs by two compilers; and the trials of the programs, side by side. By itself, rt ci leaves processors idle for memory that no proof
# takes: so RT_JOBS says how many proofs run side by side.
test:
	tools/documents --check
	tools/draw_layers --check
	tools/draw_states --check
	tools/check_commands
	tools/check_tools
	tools/check_wrong_bodies
	tools/check_api_reference
	tools/check_schema
	tools/check_scenarios
	sum=$$(tools/prove --sum) && RT_JOBS=$$(tools/prove --most) rt ci && tools/prove --note $$sum
	$(MAKE) --no-print-directory --jobs=$$(tools/prove --most) --output-sync=target trials

# What the gate tries with the proved programs: all scenarios, whose outcomes were worked out by hand, with counted and with kept journals;
# the program as a user runs it, and on worker threads; the commands of the documents; traces in each form, and pages in a browser, where one
# is there; what mailexplore prints of an example whose orders of steps were counted apart; what becomes of refused allocations, where a C
# compiler is there; random scenarios beside a second reader, with counted and with kept journals; the journals of one worker beside those of
# the quiet run; the system messages of random systems on threads, counted; the instructions of a message beside those that the documents say,
# where valgrind is there; and the library in a repository of its own.
TRIALS := trial-scenarios trial-kept-scenarios trial-program trial-workers trial-commands trial-traces trial-trace-forms trial-pages \
    trial-outcomes trial-allocations trial-model trial-kept-model trial-order trial-system-messages trial-instructions trial-embedding
.PHONY: trials $(TRIALS)
trials: $(TRIALS)
trial-scenarios:
	tools/check_scenarios $(PROGRAM)
trial-kept-scenarios:
	tools/check_scenarios $(KEPT)
trial-program:
	tools/check_program $(PROGRAM)
trial-workers:
	tools/check_workers $(PROGRAM)
trial-commands:
	tools/check_commands $(PROGRAM)
trial-traces:
	tools/check_traces $(TRACE)
trial-trace-forms:
	tools/check_trace_forms $(TRACE)
trial-pages:
	tools/try_pages $(TRACE)
trial-outcomes:
	tools/check_outcomes $(EXPLORE) $(PROGRAM)
trial-allocations:
	@if command -v "$${CC:-cc}" > /dev/null; then $(MAKE) --no-print-directory refuse; else echo 'no C compiler: no allocation was refused'; fi
trial-model:
	tools/compare_with_a_model $(PROGRAM)
trial-kept-model:
	tools/compare_with_a_model $(KEPT)
trial-order:
	tools/check_order $(TRACE)
trial-system-messages:
	tools/check_system_messages $(TRACE)
trial-instructions:
	@if command -v valgrind > /dev/null; then tools/count_instructions $(PROGRAM) $(KEPT); else echo 'no valgrind: no instruction was counted'; fi
trial-embedding:
	tools/check_embed --prove

# Refuses each allocation of the program in turn, and each of a whole run by the tests that the gate has built.
refuse: proved
	tools/refuse_each_allocation program=$(PROGRAM) system=crates/mb_dispatch_tests/out/mb_dispatch_tests_tests \
	    run=crates/mb_dispatch_tests/out/mb_dispatch_tests_tests

# Proves what changed since the last check, the crates of tests too, lowest crate first.
check:
	rt all check

# Tries the wrong bodies that the gate leaves out: make wrong-bodies [CRATE=name]
wrong-bodies:
	tools/try_wrong_bodies $(CRATE)

# What the parts cost: messages through a cell and its journal, the queues, the gates and the pools; and six workloads of the program. Where
# valgrind is there, it counts the instructions of a message too, and ends with an error where they are more than docs/SPEED.md says.
bench: instructions
	@tools/prove bench
	@crates/bench/out/bench
	@tools/time_workloads $(PROGRAM)

# The instructions of a message beside those that docs/SPEED.md says.
instructions:
	@tools/prove mailrun mailrun_kept
	@if command -v valgrind > /dev/null; then tools/count_instructions $(PROGRAM) $(KEPT); else echo 'no valgrind: no instruction was counted'; fi

# The program beside its peers, with counted and with kept journals, as docs/SPEED.md shows them: make compare [ROUNDS=number]. It says
# which peers this machine can run, and installs nothing.
compare:
	@tools/prove mailrun mailrun_kept
	@tools/compare_with_peers $(PROGRAM) $(KEPT) $(if $(ROUNDS),--rounds $(ROUNDS))

# Installs the two programs: make install [PREFIX=path]
install: proved
	install -D -m 755 $(PROGRAM) $(DESTDIR)$(PREFIX)/bin/mailrun
	install -D -m 755 $(TRACE) $(DESTDIR)$(PREFIX)/bin/mailtrace

proved:
	@tools/prove
