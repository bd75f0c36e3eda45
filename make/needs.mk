# What a target needs beside the files here, said in words before anything starts. A target names them as order-only
# prerequisites, which are tried each time and make nothing anew:   name: files | need-rt need-cc
.PHONY: need-rt need-cc need-cxx need-cargo need-target need-pkg-config need-cmake

need-rt:
	@command -v rt >/dev/null || { echo "make: the Rattle toolchain is missing: there is no 'rt' on the PATH" >&2; exit 1; }

need-cc:
	@command -v $(firstword $(CC)) >/dev/null || { echo "make: a C compiler is missing: there is no '$(firstword $(CC))' on the PATH (CC names another)" >&2; exit 1; }

need-cxx:
	@command -v $(firstword $(CXX)) >/dev/null || { echo "make: a C++ compiler is missing: there is no '$(firstword $(CXX))' on the PATH (CXX names another)" >&2; exit 1; }

need-cargo:
	@command -v cargo >/dev/null || { echo "make: Rust is missing: there is no 'cargo' on the PATH" >&2; exit 1; }

need-pkg-config:
	@command -v pkg-config >/dev/null || { echo "make: there is no 'pkg-config' on the PATH" >&2; exit 1; }

need-cmake:
	@command -v cmake >/dev/null || { echo "make: there is no 'cmake' on the PATH" >&2; exit 1; }

need-target:
	@mkdir -p target 2>/dev/null && [ -w target ] || { echo "make: $(CURDIR)/target cannot be written, and all that is built goes there" >&2; exit 1; }

test: need-rt need-target

# Operands that are whole numbers, each tried by the target number-NAME.
NUMBERS := CALLS SECONDS SEED RUNS STEPS
.PHONY: $(NUMBERS:%=number-%)
$(NUMBERS:%=number-%): number-%:
	@case '$(subst ','\'',$($*))' in '' | *[!0-9]* | ??????????????????*) \
	    echo "make: $* is to be a whole number of at most 17 digits, and is '$(subst ','\'',$($*))'" >&2; exit 1;; esac
