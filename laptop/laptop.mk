# The laptop tool, for the root Makefile to include. All paths are relative to the root.
LAPTOP_CC := gcc -std=c11 -O2 -Wall -Wextra -Werror
LAPTOP_SANITIZED := $(LAPTOP_CC) -g -fsanitize=address,undefined -fno-sanitize-recover=all
LAPTOP_SOURCES := $(wildcard laptop/*.c)
LAPTOP_HEADERS := $(wildcard laptop/*.h)
LAPTOP_LIBRARY := target/staticlib/liblaptop.a
LAPTOP_INPUTS := $(LAPTOP_SOURCES) $(LAPTOP_HEADERS) $(LAPTOP_LIBRARY)
LAPTOP_TESTS := target/tools/laptop-test

.PHONY: laptop laptop-test laptop-test-programs

laptop: target/tools/racklap

target/tools/racklap: $(LAPTOP_INPUTS)
	@mkdir -p $(@D)
	$(LAPTOP_CC) -o $@ $(LAPTOP_SOURCES) $(LAPTOP_LIBRARY)

# laptop/test/run builds what it needs: it is also run by itself.
laptop-test:
	laptop/test/run

laptop-test-programs: target/tools/racklap $(LAPTOP_TESTS)/racklap-sanitized \
    $(LAPTOP_TESTS)/racklap-short $(LAPTOP_TESTS)/rackgen $(LAPTOP_TESTS)/vcd_stages \
    $(LAPTOP_TESTS)/withdrawals $(LAPTOP_TESTS)/well_formed

$(LAPTOP_TESTS)/racklap-sanitized: $(LAPTOP_INPUTS)
	@mkdir -p $(@D)
	$(LAPTOP_SANITIZED) -o $@ $(LAPTOP_SOURCES) $(LAPTOP_LIBRARY)

$(LAPTOP_TESTS)/racklap-short: $(LAPTOP_INPUTS) laptop/test/short_buffer.c
	@mkdir -p $(@D)
	$(LAPTOP_SANITIZED) -Wl,--wrap=rack_settle -o $@ $(LAPTOP_SOURCES) laptop/test/short_buffer.c \
	    $(LAPTOP_LIBRARY)

$(LAPTOP_TESTS)/%: laptop/test/%.c
	@mkdir -p $(@D)
	$(LAPTOP_SANITIZED) -o $@ $<
