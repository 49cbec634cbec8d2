# The proved program, ready to be used as ./xfs. `rt` is the kit's command.
#
# What the program stands on is proved once, in a copy that has neither tests nor must-fail edits. A kit that keeps what it proved takes
# what was proved on this machine as it is.
SHELL := bash
.SHELLFLAGS := -eu -o pipefail -c
RT := rt ci

# The lines of crates.txt for the program and all that it stands on.
LINES = awk -F: '/^[a-z]/ { name = $$1; sub(/ .*/, "", name); line[name] = $$0; below[name] = $$2 } \
	END { visit("xfs") } \
	function visit(name, names, n, i) { \
		if (name in seen || !(name in line)) return; \
		seen[name]; n = split(below[name], names, " "); \
		for (i = 1; i <= n; i++) visit(names[i]); \
		print line[name] }' crates.txt
NEEDED := $(shell $(LINES) | sed 's/[ :].*//')
SOURCES := $(shell find $(NEEDED:%=crates/%) -path '*/out' -prune -o -path '*/must-fail' -prune -o -type f -print)

xfs: crates.txt HANDLES $(SOURCES)
	@echo "Proving and building $(words $(NEEDED)) crates: 25 to 60 minutes on four processors, two where all was proved here before."
	@work=$$(mktemp -d); trap 'rm -rf $$work' EXIT; \
	git init -q $$work; cp HANDLES $$work; $(LINES) > $$work/crates.txt; \
	for crate in $(NEEDED); do mkdir -p $$work/crates/$$crate; \
		find crates/$$crate -mindepth 1 -maxdepth 1 ! -name out ! -name must-fail -exec cp -r {} $$work/crates/$$crate \; ; done; \
	(cd $$work; $(RT) 2>&1 | tee log | sed -nu 's/^rt: \([a-z_]*\) \(proved\|is kept\).*/  \1/p') || { cat $$work/log; exit 1; }; \
	cp $$work/crates/xfs/out/xfs $@

# A link to the program with a tool's name is that tool. DESTDIR stands in front of each path where the files are to be packed. The
# tools of xfsprogs have the same names: what is no link of ours is neither replaced nor taken away.
PREFIX ?= /usr/local
PROGRAMS = $(DESTDIR)$(PREFIX)/sbin
PAGES = $(DESTDIR)$(PREFIX)/share/man/man8
TOOLS := xfs_repair mkfs.xfs xfs_db

.PHONY: install uninstall clean
install: xfs
	@for tool in $(TOOLS); do link="$(PROGRAMS)/$$tool"; \
		if [ -e "$$link" ] && [ "$$(readlink "$$link")" != xfs ]; then echo "$$link is another program"; exit 1; fi; done
	install -d "$(PROGRAMS)" "$(PAGES)"
	install -m 755 xfs "$(PROGRAMS)/xfs"
	for tool in $(TOOLS); do ln -sf xfs "$(PROGRAMS)/$$tool"; install -m 644 "man/$$tool.8" "$(PAGES)"; done

uninstall:
	for tool in $(TOOLS); do \
		if [ "$$(readlink "$(PROGRAMS)/$$tool")" = xfs ]; then rm -f "$(PROGRAMS)/$$tool" "$(PAGES)/$$tool.8"; fi; done
	rm -f "$(PROGRAMS)/xfs"

clean:
	rm -rf xfs crates/*/out
