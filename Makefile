# The tasks of a contributor. Each is a command that can be run by itself, too: `make -n TASK` prints it.
SHELL := /usr/bin/bash
.SHELLFLAGS := -euo pipefail -c
MAKEFLAGS += --no-builtin-rules --jobs=$(shell nproc) $(if $(filter quick,$(MAKECMDGOALS)),--output-sync=target)
PYTHON = $(or $(shell . scripts/python.sh && python_with pytest,xdist),/usr/bin/python3)
FAST = not slow and not postgres and not browser and not alone
# Debian has staticcheck as sources only (golang-honnef-go-tools-dev). To build it, and to look at all libraries of Go for
# the first time, costs half of what `make quick` costs then. So `make quick` runs it only once it is built.
STATICCHECK = $(CURDIR)/build/staticcheck

# What takes longest begins first. The others keep the processors busy beside two processes of pytest.
QUICK = quick-go quick-types quick-tests quick-format quick-shell quick-lint quick-rattle

.PHONY: help packages quick staticcheck test check one mutants prebuilt generate format release $(QUICK)

# What is asked for beside the packages waits until they are installed: make packages test.
ifneq ($(filter packages,$(MAKECMDGOALS)),)
$(filter-out packages help,$(MAKECMDGOALS)) $(QUICK) $(STATICCHECK) generate: | packages
endif

help: ## print this list
	@awk -F ':.*## ' '/^[a-z]+:.*## / { printf "make %-12s %s\n", $$1, $$2 }' $(MAKEFILE_LIST)

packages: ## install the packages of Debian that the tests use (packages.txt), as root or with sudo
	scripts/packages

quick: $(QUICK) ## format, lint, types, and tests that start no process: half a minute

staticcheck: $(STATICCHECK) ## build staticcheck and look at all Go with it; from then on, make quick does so, too
	scripts/go $(STATICCHECK) ./...

test: ## the tests, over the prebuilt library: some minutes
	./check --tests

check: ## the proofs of what has changed, and all tests. Everything from nothing: ./check --anew
	./check

one: ## one test by its name or file: make one T=test_locks, make one T=... A="-x --pdb"
	@[ -n "$(T)" ] || { echo 'usage: make one T=NAME or T=FILE[::TEST] [A="arguments of pytest"]' >&2; exit 2; }
	$(PYTHON) -m pytest -v $(if $(or $(findstring /,$(T)),$(findstring .py,$(T))),'$(T)',-k '$(T)') $(A)

mutants: SEED = 1
mutants: COUNT = 100
mutants: ## change the Go code in some places, and print the changes that no test notices: make mutants SEED=1 COUNT=100
	scripts/go build -o $(CURDIR)/build/mutants/mutants ./internal/mutants
	scripts/go $(CURDIR)/build/mutants/mutants draw -seed $(SEED) -count $(COUNT) $(if $(WORKERS),-workers $(WORKERS)) \
	    -folder $(CURDIR)/build/mutants $(PACKAGES)

prebuilt: ## prove and build the library, osb-replay and the programs of cases, and write prebuilt/
	scripts/prebuilt

generate: ## write the header and the constants of the packages from api/table.py, and the metrics from docs/operating.md
	$(PYTHON) -m api.generate

release: ## write the packages that people install to dist/: docs/install.md
	$(PYTHON) -m release

format: generate ## generate, format all crates, Python, bash and Go, and write what the documents embed
	scripts/files python | xargs black -q
	scripts/files python | xargs isort -q
	scripts/files bash | xargs shfmt -w -i 4 -ci
	gofmt -w go
	if command -v rattle >/dev/null; then scripts/files rattle | xargs rattle fmt; fi
	scripts/embed.py
	scripts/go_packages.py

quick-format:
	scripts/files python | xargs black -q --check
	scripts/files python | xargs isort -q --check
	scripts/files bash | xargs shfmt -d -i 4 -ci
	[ -z "$$(gofmt -l go | tee /dev/stderr)" ]

# `rt ci` rejects a crate that isn't in Rattle's layout. Only who has Rattle changes a crate.
quick-rattle:
	if command -v rattle >/dev/null; then scripts/files rattle | xargs rattle fmt --check; fi

quick-lint:
	scripts/files python | xargs flake8

quick-shell:
	scripts/files bash | xargs shellcheck

quick-go:
	scripts/go vet ./...
	if [ -x $(STATICCHECK) ]; then scripts/go $(STATICCHECK) ./...; else \
		echo "staticcheck isn't built, and wasn't run. Run make staticcheck once"; fi

quick-types:
	scripts/files python | xargs mypy --scripts-are-modules

quick-tests:
	$(PYTHON) -m pytest -q -n 2 -m '$(FAST)'

$(STATICCHECK):
	@[ -d /usr/share/gocode/src/honnef.co/go/tools ] || \
		{ echo "make staticcheck needs Debian's golang-honnef-go-tools-dev" >&2; exit 1; }
	GO111MODULE=off GOFLAGS= GOPATH=/usr/share/gocode go build -o $@ honnef.co/go/tools/cmd/staticcheck

.ONESHELL:
