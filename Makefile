# make demo: play an example script. make test: the gate: prove everything, and run all tests.
.PHONY: demo test

EXAMPLE ?= examples/taxi.txt

demo:
	@echo "proving and building station (some minutes the first time; the log is target/demo.log) .."
	@mkdir -p target && (cd crates/station && rt run -- --help) > target/demo.log 2>&1 || { cat target/demo.log; exit 1; }
	@echo "$(EXAMPLE), line by line: what is asked, then what station prints"
	@echo "  (epoch, boxes, node keys, and the tree: . blank, a member, * a parent with a key)"
	@echo
	@examples/show crates/station/out/station $(EXAMPLE)

test:
	@bash .ci/run
