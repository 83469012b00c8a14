# `make demo` shows the program's main job on the sample depot; `make test` passes all tests, as `.ci/run` does.
.PHONY: demo test

demo:
	@cd crates/registry && rt run -- once --root data/depot < stdin

test:
	@rt ci
