# How a C program is linked with the library and run, for the makefiles that say where this repository stands (ROOT).
# The library is for x86-64. On another machine Debian's cross compiler links it, and Debian's emulator runs the program.
ARCHIVE = $(ROOT)/crates/bench_c/out/libbench_c.a
ifeq ($(shell uname -m),x86_64)
LIBRARY_CC = gcc
EMULATOR =
else
LIBRARY_CC = x86_64-linux-gnu-gcc
EMULATOR = qemu-x86_64
endif
LIBRARY_FLAGS = -std=c11 -O2 -Wall -Wextra -pedantic -static -I$(ROOT)/include

# Proved and built by the kit.
$(ARCHIVE): $(wildcard $(ROOT)/crates/*/src/*.rt)
	cd $(ROOT)/crates/bench_c && rt lib
