# Solves each day of a folder, as many at once as make may run, and only those whose file is newer than their report:
#   make -j 4 -f examples/days.mk DAYS=days
# OPTIONS are those of solve, and GLOCK is the program, such as ./glock in place of an installed one.

DAYS ?= days
GLOCK ?= glock
OPTIONS ?=
reports := $(patsubst %.lock,%.report,$(wildcard $(DAYS)/*.lock))

all: $(or $(reports),$(error there is no day such as monday.lock in the folder $(DAYS)))

# An open end (status 1) has a report too.
%.report: %.lock
	$(GLOCK) solve $< -o $@ --workers 1 $(OPTIONS) || [ $$? = 1 ]

.PHONY: all
