# 'make help' says what each target does: the text behind '##' of its line.
.PHONY: help demo try build test gate times wrong-bodies lint bench install uninstall deb manual gateway s3

help: ## this list
	@awk -F ':.*## ' '/^[a-z0-9-]+:.*## / { printf "make %-13s %s\n", $$1, $$2 }' $(firstword $(MAKEFILE_LIST))

demo: ## the main job, on its stored run
	@tools/bucketd <crates/bucketd/stdin

try: ## a script of your own: FILE=your.script
	@tools/bucketd <"$(or $(FILE),$(error make try FILE=your.script))"

build: ## the proved program, crates/bucketd/out/bucketd; CPU=x86-64-v3: for processors with AVX2, out/x86-64-v3/bucketd
	@CPU="$(CPU)" tools/build

test: ## all tests, without proof in minutes; NAME=crash, files, ..: one subject at its full size; ALL=1; PROGRAM=path
	@$(if $(filter clients,$(NAME)),tools/clients $(if $(PROGRAM),"$(PROGRAM)"),tools/test $(if $(ALL),--all) $(if $(PROGRAM),--program "$(PROGRAM)") $(if $(NAME),--full $(NAME)))

gate: ## every proof and stored run, from nothing
	@tools/gate

times: ## the gate, and then what each crate cost, in seconds of a processor
	@tools/gate-times tools/gate

wrong-bodies: ## tries and stamps the wrong bodies whose stamp isn't true any more (wrong-bodies/README.md); CRATE=bh_docs
	@tools/wrong-bodies $(CRATE)

lint: ## the layout of all sources
	@tools/lint-layout

bench: ## measures: NAME=pages, serving, .. (bench/README.md), else the speed and memory of scripts; PROGRAM=path
	@bench/$(or $(NAME),run).py $(if $(PROGRAM),"$(PROGRAM)") $(if $(BEFORE),"$(BEFORE)")

install: ## the proved program (CPU=x86-64-v3: that one), or PROGRAM=path, with page, completions and units, below PREFIX=/usr/local, below DESTDIR
	@PREFIX="$(PREFIX)" DESTDIR="$(DESTDIR)" PROGRAM="$(PROGRAM)" CPU="$(CPU)" tools/install

uninstall: ## takes away what install put there, and leaves every host
	@PREFIX="$(PREFIX)" DESTDIR="$(DESTDIR)" tools/install --remove

deb: ## Debian's packages of it and of the gateway, in deploy/out; PROGRAM=path; PROGRAM_V3=path, one built for x86-64-v3
	@PROGRAM="$(PROGRAM)" PROGRAM_V3="$(PROGRAM_V3)" GATEWAY="$(GATEWAY)" VERSION="$(VERSION)" INTO="$(INTO)" tools/deb

manual: ## makes the page for man and the completions of what the program's help says
	@tools/manual $(if $(PROGRAM),"$(PROGRAM)")

gateway: ## builds the gateway for stock S3 clients, gateway/out/gateway (Debian's golang-go)
	@gateway/build

s3: ## a tenant, a key, the gateway and an aws-cli, in one screen
	@tools/s3 $(if $(PROGRAM),"$(PROGRAM)")
