# Books under make. A Makefile that includes this file runs each book once, as many at a time as -j says, and again only after a
# change of the book or of one that it includes:
#
#     GL = /home/me/gl/gl
#     include /home/me/gl/books/gl.mk
#
#     make -f /home/me/gl/books/gl.mk GL=/home/me/gl/gl     does so without a Makefile
#     make -j4              runs the books, goes on past those that fail, and ends with a summary over all of them
#     make gl-summary       the summary alone
#     make gl-clean         removes what was made
#
# The transcript of sub/a.lisp is sub/a.out. A book that fails leaves no sub/a.out, but its transcript as sub/a.failed, and the
# books that include it are not run. Names in include-book forms count from the folder that make runs in. A book that includes a
# text which is not there fails, and so does one that has a blank in its name: make knows no such names.

GL ?= gl
# The books: all below this folder, where nothing else is said.
ifndef GL_BOOKS
GL_BOOKS := $(patsubst ./%,%,$(shell find . -name '*.lisp' ! -path '*[[:blank:]]*' | sort))
GL_BLANKS := find . -name '*.lisp' -path '*[[:blank:]]*'
else
GL_BLANKS := true
endif
# Options for each run, as --nodes 4000000.
GL_FLAGS ?=
# A book with a vacuous theorem fails, and so does one with an undecided theorem, value or assert. Say `vacuous`, `undecided`, or
# both, to let them pass. What is refuted or NIL, and a book that is refused, always fails.
GL_ALLOWS ?=

# The file that make was given, which may be this one: it is made from again.
gl_make := $(MAKE) --no-print-directory -f $(firstword $(MAKEFILE_LIST))

.PHONY: gl-all gl-books gl-blanks gl-again gl-summary gl-clean
.SUFFIXES:

gl-all:
	+@$(gl_make) -k gl-books; status=$$?; $(gl_make) gl-summary; exit $$status

gl-books: $(GL_BOOKS:.lisp=.out) gl-blanks
	@:

gl-blanks:
	@! $(GL_BLANKS) | sed 's|^\./||; s|\.lisp$$|: FAILED, a blank in its name|' | grep . >&2

# The transcript goes to a file of another name, which is renamed once it is whole and has passed.
%.out: %.lisp
	@rm -f $@ $*.failed; $(GL) $(GL_FLAGS) $< >$@.new; status=$$?; why=; \
	case $$status in \
	0) ;; \
	4) why="$(if $(gl_lacks),there is no $(gl_lacks),status 4)"; echo "$$why" >$@.new ;; \
	1) why=refuted ;; \
	2) why=refused ;; \
	3) case " $(GL_ALLOWS) " in *" undecided "*) ;; *) why=undecided ;; esac ;; \
	*) why="status $$status" ;; \
	esac; \
	case "$$why,$$(tail -n 1 $@.new), $(GL_ALLOWS) " in \
	,*" vacuous=0 "*) ;; \
	,*" vacuous="*", "*" vacuous "*) ;; \
	,*) why=vacuous ;; \
	esac; \
	if [ -z "$$why" ]; then mv $@.new $@; echo "$*: $$(tail -n 1 $@)"; \
	else mv $@.new $*.failed; echo "$*: FAILED, $$why: see $*.failed" >&2; exit 1; fi

# What a transcript stands on, by the forms (include-book "s") that stand on a line of their own: the transcript of s where s is
# one of the books, else the text of s and what that includes. Each text has an empty rule, so that one that is gone stops nothing.
# A text that is not there is told to the book's rule, and the book is run each time; once it is there, all this is made anew.
define gl_includes
function walk(out, name,   line, part, text) {
    if ((out, name) in seen) return
    seen[out, name] = 1
    if ((getline line < name) < 0) {
        print out ": gl-again"
        print out ": gl_lacks += " name
        print "ifneq ($$(wildcard " name "),)"
        print ".gl-includes.mk: gl-again"
        print "endif"
        return
    }
    close(name)
    print ".gl-includes.mk: " name
    print out ": " name
    print name ":"
    while ((getline line < name) > 0)
        if (tolower(line) ~ /^[ \t]*\(include-book[ \t]+"[^" \t]+"[ \t]*\)/) {
            split(line, part, "\"")
            text = part[2] ".lisp"
            if (text in own) print out ": " part[2] ".out"
            else walk(out, text)
        }
    close(name)
}
BEGIN {
    for (i = 1; i < ARGC; i++) own[ARGV[i]] = 1
    for (i = 1; i < ARGC; i++) {
        out = ARGV[i]
        sub(/\.lisp$$/, ".out", out)
        walk(out, ARGV[i])
    }
}
endef
export gl_includes

.gl-includes.mk: $(GL_BOOKS)
	@printenv gl_includes >$@.awk && awk -f $@.awk $(GL_BOOKS) >$@.new && rm -f $@.awk && mv $@.new $@

ifeq ($(filter gl-clean gl-summary,$(MAKECMDGOALS)),)
include .gl-includes.mk
endif

# One line for each book that failed, with what it failed by first, or else its last line; one for each that was not run; and the
# sums of the last lines of all that passed. A book that fails by what is undecided alone counts as undecided, and so does what is
# undecided in it.
gl-summary:
	@{ for book in $(GL_BOOKS:.lisp=); do \
	if [ -f $$book.failed ]; then \
	why=$$(grep -m 1 -e ^REFUSED -e ^REFUTED -e '^ASSERT nil' $$book.failed) && echo "failed: $$book: $$why" || \
	{ why=$$(grep -m 1 -e ^UNDECIDED -e '^ASSERT undecided' -e '^VALUE undecided' $$book.failed) && echo "undecided: $$book: $$why" && \
	tail -n 1 $$book.failed | sed 's/^DONE .*=/more undecided=/'; } || \
	echo "failed: $$book: $$(grep -m 1 ^VACUOUS $$book.failed || tail -n 1 $$book.failed)"; \
	elif ! [ -f $$book.out ]; then echo "not run: $$book"; \
	else tail -n 1 $$book.out; fi; done; \
	$(GL_BLANKS) | sed 's|^\./|failed: |; s|\.lisp$$|: a blank in its name|'; } | awk -F '[ =]' \
	'/^more / { undecided += $$3; next } \
	!/^DONE / { print; if (/^failed/) failed++; else if (/^undecided/) open++; else left++; next } \
	{ passed++; proved += $$3; vacuous += $$5; refuted += $$7; undecided += $$9 } \
	END { printf "books: %d passed, %d failed, %s%d not run; theorems: %d proved, %d vacuous; undecided %d\n", \
	passed, failed, open ? open " undecided, " : "", left, proved, vacuous, undecided }'

gl-clean:
	@rm -f .gl-includes.mk $(GL_BOOKS:.lisp=.out) $(GL_BOOKS:.lisp=.failed)
