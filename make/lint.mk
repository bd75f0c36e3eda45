# The headers and examples through every compiler that is there, in each standard from C99 to C++20, and through cppcheck:
# a warning is a failure. No part of the gate.
LINT_FLAGS := -Wall -Wextra -Wpedantic -Wconversion -Werror -fsyntax-only -Iinclude
LINT_C := $(notdir $(shell command -v gcc) $(shell command -v clang))
LINT_CXX := $(notdir $(shell command -v g++) $(shell command -v clang++))

.PHONY: lint
lint: ## the headers and examples through gcc, clang and cppcheck, C99 to C++20
	@[ -n "$(LINT_C)" ] && command -v cppcheck >/dev/null || { echo "make: lint needs gcc or clang, and cppcheck" >&2; exit 1; }
	@for cc in $(LINT_C); do for std in c99 c11 c17; do for f in include/*.h examples/*.c; do \
	    echo "#include \"$$f\"" | $$cc -std=$$std $(LINT_FLAGS) -I. -x c - || exit 1; done; done; done
	@for cc in $(LINT_CXX); do for std in c++11 c++14 c++17 c++20; do for f in include/*.h examples/*.c; do \
	    echo "#include \"$$f\"" | $$cc -std=$$std $(LINT_FLAGS) -I. -x c++ - || exit 1; done; done; done
	@cppcheck --quiet --enable=warning,style,performance,portability --error-exitcode=1 --std=c99 -Iinclude include examples
	@echo "no finding by $(LINT_C) $(LINT_CXX) cppcheck"
