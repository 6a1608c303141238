# make             proves and builds the program, if it is missing or old
# make install     installs program, man pages, completions, scripts and documents under PREFIX (default /usr/local)
# make uninstall   removes them again
# make packages    makes a Debian package and an archive of the built program in dist/, with checksums; contrib/try_package.sh tries the package
# make check       the gate: every proof, must-fail edit, test and program
# make pages       makes the man pages, the completions and docs/TOOLS.md from contrib/tools.txt
# make check-docs  checks them, each link, and, if the program is built, each command of the documents
PREFIX = /usr/local
DESTDIR =
program = crates/mfu/out/mfu
to = $(DESTDIR)$(PREFIX)
pages = $(wildcard man/*.1)
scripts = contrib/mfu-here contrib/paths0 contrib/roots.py contrib/split_list.py contrib/list_json.py contrib/staged_walk.sh contrib/divide_walk.sh contrib/example_tree.sh
top_docs = README.md LICENSE CHANGELOG.md
docs = $(wildcard docs/*.md docs/*.png)

all:
	@./mfu --version

install: all
	install -d "$(to)/bin" "$(to)/share/man/man1" "$(to)/share/bash-completion/completions"
	install -d "$(to)/share/zsh/site-functions" "$(to)/share/fish/vendor_completions.d"
	install -d "$(to)/share/mfu" "$(to)/share/doc/mfu/docs"
	install -m 755 $(program) "$(to)/bin/mfu"
	install -m 755 $(scripts) "$(to)/share/mfu"
	install -m 644 $(top_docs) "$(to)/share/doc/mfu"
	install -m 644 $(docs) "$(to)/share/doc/mfu/docs"
	install -m 644 $(pages) "$(to)/share/man/man1"
	install -m 644 completions/mfu.bash "$(to)/share/bash-completion/completions/mfu"
	install -m 644 completions/_mfu "$(to)/share/zsh/site-functions/_mfu"
	install -m 644 completions/mfu.fish "$(to)/share/fish/vendor_completions.d/mfu.fish"

uninstall:
	rm -f "$(to)/bin/mfu"
	for page in $(notdir $(pages)); do rm -f "$(to)/share/man/man1/$$page"; done
	rm -f "$(to)/share/bash-completion/completions/mfu"
	rm -f "$(to)/share/zsh/site-functions/_mfu"
	rm -f "$(to)/share/fish/vendor_completions.d/mfu.fish"
	for file in $(notdir $(scripts)); do rm -f "$(to)/share/mfu/$$file"; done
	for file in $(top_docs) $(docs); do rm -f "$(to)/share/doc/mfu/$$file"; done
	-rmdir "$(to)/share/mfu" "$(to)/share/doc/mfu/docs" "$(to)/share/doc/mfu"

packages: all
	sh contrib/make_packages.sh dist

check:
	sh .ci/run

pages:
	python3 -B contrib/make_pages.py

check-docs:
	python3 -B contrib/check_docs.py

.PHONY: all install uninstall packages check pages check-docs
