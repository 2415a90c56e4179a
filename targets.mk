# Builds for other systems, of the module kept beside what was built for this one: in build/TARGET, or with UNPROVED=1 in
# build/quick/TARGET. The Makefile includes it.
CALLS = $(shell grep -o '^uint32_t dimacs_[a-z_]*' lib/include/dimacs.h | cut -d' ' -f2)
PAGE_CALLS = $(addprefix dimacs_,proved version_text command)
TOOLCHAIN = $(or $(KIT),kit-is-missing)/toolchain/bin

## make wasm: builds build/wasm/dimacs.wasm, which is not proved but compiled from what is; UNPROVED=1 takes what isn't
wasm: $(FROM)/wasm/dimacs.wasm

# One page of 64 KB less than 32-bit addresses reach.
WASM_CC = $(TOOLCHAIN)/clang --target=wasm64-unknown-unknown -mcpu=lime1 -O2 -fwrapv -ffreestanding -nostdinc \
    -fno-builtin-malloc --no-default-config -mllvm -expand-div-rem-bits=64
WASM_LINK = $(TOOLCHAIN)/ld.lld -flavor wasm -mwasm64 --no-entry --stack-first -z stack-size=1048576 \
    --max-memory=4294901760 --gc-sections --strip-all --compress-relocations -O2 --export=malloc --export=realloc --export=free

%/wasm/dimacs.o: %/dimacs_c.bc tools/targets/compile.py
	mkdir -p $(@D)
	tools/targets/compile.py wasm $< $@

# The page's module has the calls that the page makes.
%/wasm/dimacs64.wasm %/wasm/page64.wasm: %/wasm/dimacs.o lib/glue/heap.c lib/glue/wasm_heap.c lib/glue/wasm_int128.c \
    lib/include/dimacs.h targets.mk
	$(WASM_CC) -c lib/glue/heap.c -o $(@D)/heap.o
	$(WASM_CC) -c lib/glue/wasm_heap.c -o $(@D)/malloc.o
	$(WASM_CC) -c lib/glue/wasm_int128.c -o $(@D)/int128.o
	$(WASM_LINK) $(CALLS:%=--export=%) $< $(@D)/heap.o $(@D)/malloc.o $(@D)/int128.o -o $(@D)/dimacs64.wasm
	$(WASM_LINK) $(PAGE_CALLS:%=--export=%) $< $(@D)/heap.o $(@D)/malloc.o $(@D)/int128.o -o $(@D)/page64.wasm

%.wasm: %64.wasm tools/targets/lower_addresses.py
	tools/targets/lower_addresses.py $< $@

## make npm: packs the module with its calls and its command for node, as build/npm/dimacs.tgz
npm: $(FROM)/npm/dimacs.tgz
	@echo 'Try:  npm install $<'

JS = $(filter-out lib/js/package.json,$(wildcard lib/js/*.js lib/js/*.ts lib/js/*.json lib/js/README.md))

%/npm/dimacs.tgz: %/wasm/dimacs.wasm lib/js/package.json $(JS) VERSION
	rm -rf $(@D)
	mkdir -p $(@D)/package
	cp $(JS) $< $(@D)/package
	sed 's/"version": .*/"version": "$(VERSION)$(if $(UNPROVED),-unproved)",/' lib/js/package.json >$(@D)/package/package.json
	cd $(@D) && tar --sort=name --mtime=@0 --owner=0 --group=0 --numeric-owner -c package | gzip -9n >dimacs.tgz

## make page: makes build/page/dimacs.html, one file that checks and solves in a browser, and needs no server
page: $(FROM)/page/dimacs.html

%/page/dimacs.html: %/wasm/page.wasm tools/targets/page.py $(JS) $(wildcard lib/page/* examples/*)
	mkdir -p $(@D)
	tools/targets/page.py $< $@

## make aarch64: builds the program and the library for aarch64 Linux in build/aarch64, proved for that target
aarch64: $(addprefix $(FROM)/aarch64/,dimacs $(LIBRARY))

# The Makefile's rules link the library, by these tools.
ARM = aarch64-linux-gnu
%/aarch64/dimacs.o %/aarch64/libdimacs.a %/aarch64/libdimacs.so.0: CC = $(ARM)-gcc
%/aarch64/dimacs.o %/aarch64/libdimacs.a %/aarch64/libdimacs.so.0: AR = $(ARM)-ar
%/aarch64/dimacs.o: OBJCOPY = $(ARM)-objcopy
%/aarch64/dimacs.o: HEAP = $(@D)/heap.o

build/aarch64/dimacs.o build/quick/aarch64/dimacs.o: %/dimacs.o: %/heap.o

%/aarch64/heap.o: lib/glue/heap.c
	mkdir -p $(@D)
	$(ARM)-gcc -O2 -fPIC -Wall -Wextra -c $< -o $@

%/aarch64/dimacs: %/aarch64/main.o %/aarch64/heap.o lib/glue/os.c
	$(ARM)-gcc -O2 -fPIE -pie -Wl,-z,relro,-z,now -Wall -Wextra -s -o $@ $^

build/aarch64/dimacs_c.a build/aarch64/main.o: build/dimacs tools/targets/aarch64.py
	tools/targets/aarch64.py $@

build/quick/aarch64/dimacs_c.a: build/quick/dimacs_c.bc tools/targets/compile.py
	mkdir -p $(@D)
	tools/targets/compile.py aarch64 $< $(@D)/calls.o
	rm -f $@
	$(ARM)-ar rcs $@ $(@D)/calls.o

build/quick/aarch64/main.o: build/quick/dimacs.bc tools/targets/compile.py
	mkdir -p $(@D)
	tools/targets/compile.py aarch64 $< $@

## make windows: builds build/windows/dimacs.dll and its import library, which aren't proved but compiled from what is
windows: $(FROM)/windows/dimacs.dll

MINGW = x86_64-w64-mingw32

%/windows/calls.o: %/dimacs_c.bc tools/targets/compile.py
	mkdir -p $(@D)
	tools/targets/compile.py windows $< $@

%/windows/heap.o: lib/glue/heap.c
	mkdir -p $(@D)
	$(TOOLCHAIN)/clang --target=x86_64-w64-windows-gnu --no-default-config -O2 -Wall -Wextra -c $< -o $@

%/windows/dimacs.dll: %/windows/calls.o %/windows/heap.o lib/include/dimacs.h
	printf '%s\n' EXPORTS $(CALLS) >$(@D)/dimacs.def
	$(MINGW)-gcc -shared -static-libgcc -s -Wl,--gc-sections,--no-insert-timestamp -o $@ $(filter %.o,$^) $(@D)/dimacs.def \
	    -Wl,--out-implib,$(@D)/libdimacs.dll.a

## make check-targets: tests all of these that can be run here; UNPROVED=1 tests those of build/quick
check-targets:
	tests/lower_addresses.py
	tests/targets.py --build $(FROM) --all

.PRECIOUS: %/wasm/dimacs.o %/wasm/dimacs64.wasm %/wasm/page64.wasm %.wasm %/aarch64/heap.o %/windows/calls.o \
    %/windows/heap.o
.PHONY: wasm npm page aarch64 windows check-targets
