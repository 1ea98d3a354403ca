# make -j4 -f races.mk: records so many RUNS of tests/stock.py, tells their races, and ends as rdreport does.
# tools/ has rd2 and the folder rdreport, and tests/known-races begins empty.
RUNS ?= 20
TRACES := $(patsubst %,runs/%.trace,$(shell seq $(RUNS)))

races: $(TRACES)
	python3 tools/rdreport --rd2 tools/rd2 --source . --known tests/known-races --html races.html $^

runs/%.trace: again
	@mkdir -p runs
	python3 tests/stock.py $@

again:
.PHONY: races again
