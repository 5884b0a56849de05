# The whole program, by a C compiler alone.
#
#     make              builds ./onfiseq; make -j4 compiles four files at a time
#     make test         tries it, and the libraries for C, without the kit; it needs Python 3
#     make install      puts it, its manual page and its completions for bash below PREFIX
#     make clean        removes what was built
#
# CC, CFLAGS and LDFLAGS say how it is compiled, and DESTDIR stands before PREFIX. Where a system has no threads: make CFLAGS="-O1 -DONFISEQ_ONE_THREAD" THREADS=
# Its source, release/program, is the proved program as C (docs/model/TRUST.md). Any make of POSIX will do.
.POSIX:
CC = cc
CFLAGS = -O1
LDFLAGS =
THREADS = -pthread
PREFIX = /usr/local
DESTDIR =
PROGRAM = onfiseq
OUT = out/make
SOURCES = release/program
COMPILE = $(CC) $(CFLAGS) $(THREADS) -c
OBJECTS = $(OUT)/module_01.o $(OUT)/module_02.o $(OUT)/module_03.o $(OUT)/module_04.o $(OUT)/module_05.o $(OUT)/module_06.o $(OUT)/module_07.o \
	$(OUT)/module_08.o $(OUT)/module_09.o $(OUT)/module_10.o $(OUT)/module_11.o $(OUT)/module_12.o $(OUT)/module_13.o $(OUT)/module_14.o \
	$(OUT)/module_15.o $(OUT)/module_16.o $(OUT)/module_data.o $(OUT)/system.o

all: $(PROGRAM)

# Each file is made under another name first, so that one which is there is whole.
$(PROGRAM): $(OBJECTS)
	@$(CC) $(CFLAGS) $(LDFLAGS) $(THREADS) $(OBJECTS) -o $(OUT)/linked
	@mv -f $(OUT)/linked $(PROGRAM)
	@echo "built: $(PROGRAM)" >&2

# How the objects were compiled: where it is told otherwise they are compiled anew.
$(OUT)/how: always
	@command -v $(CC) > /dev/null || { echo "make: there is no C compiler $(CC): install one, or name yours, as make CC=clang" >&2; exit 1; }
	@mkdir -p $(OUT) && echo '$(COMPILE)' > $(OUT)/how.new || { echo "make: nothing can be written in $(OUT): make OUT=FOLDER PROGRAM=FILE builds elsewhere" >&2; exit 1; }
	@cmp -s $(OUT)/how.new $(OUT)/how || cp $(OUT)/how.new $(OUT)/how

always:

test: $(PROGRAM)
	@bin/test --program $(PROGRAM)

install: $(PROGRAM)
	mkdir -p "$(DESTDIR)$(PREFIX)/bin" "$(DESTDIR)$(PREFIX)/share/man/man1" "$(DESTDIR)$(PREFIX)/share/bash-completion/completions"
	cp $(PROGRAM) "$(DESTDIR)$(PREFIX)/bin/.onfiseq-new"
	mv -f "$(DESTDIR)$(PREFIX)/bin/.onfiseq-new" "$(DESTDIR)$(PREFIX)/bin/onfiseq"
	cp release/onfiseq.1 "$(DESTDIR)$(PREFIX)/share/man/man1/onfiseq.1"
	cp release/onfiseq.bash "$(DESTDIR)$(PREFIX)/share/bash-completion/completions/onfiseq"

clean:
	rm -rf $(OUT) $(PROGRAM)

$(OUT)/module_01.o: $(SOURCES)/module_01.c $(SOURCES)/module.h $(OUT)/how
	@$(COMPILE) $(SOURCES)/module_01.c -o $@.new
	@mv -f $@.new $@

$(OUT)/module_02.o: $(SOURCES)/module_02.c $(SOURCES)/module.h $(OUT)/how
	@$(COMPILE) $(SOURCES)/module_02.c -o $@.new
	@mv -f $@.new $@

$(OUT)/module_03.o: $(SOURCES)/module_03.c $(SOURCES)/module.h $(OUT)/how
	@$(COMPILE) $(SOURCES)/module_03.c -o $@.new
	@mv -f $@.new $@

$(OUT)/module_04.o: $(SOURCES)/module_04.c $(SOURCES)/module.h $(OUT)/how
	@$(COMPILE) $(SOURCES)/module_04.c -o $@.new
	@mv -f $@.new $@

$(OUT)/module_05.o: $(SOURCES)/module_05.c $(SOURCES)/module.h $(OUT)/how
	@$(COMPILE) $(SOURCES)/module_05.c -o $@.new
	@mv -f $@.new $@

$(OUT)/module_06.o: $(SOURCES)/module_06.c $(SOURCES)/module.h $(OUT)/how
	@$(COMPILE) $(SOURCES)/module_06.c -o $@.new
	@mv -f $@.new $@

$(OUT)/module_07.o: $(SOURCES)/module_07.c $(SOURCES)/module.h $(OUT)/how
	@$(COMPILE) $(SOURCES)/module_07.c -o $@.new
	@mv -f $@.new $@

$(OUT)/module_08.o: $(SOURCES)/module_08.c $(SOURCES)/module.h $(OUT)/how
	@$(COMPILE) $(SOURCES)/module_08.c -o $@.new
	@mv -f $@.new $@

$(OUT)/module_09.o: $(SOURCES)/module_09.c $(SOURCES)/module.h $(OUT)/how
	@$(COMPILE) $(SOURCES)/module_09.c -o $@.new
	@mv -f $@.new $@

$(OUT)/module_10.o: $(SOURCES)/module_10.c $(SOURCES)/module.h $(OUT)/how
	@$(COMPILE) $(SOURCES)/module_10.c -o $@.new
	@mv -f $@.new $@

$(OUT)/module_11.o: $(SOURCES)/module_11.c $(SOURCES)/module.h $(OUT)/how
	@$(COMPILE) $(SOURCES)/module_11.c -o $@.new
	@mv -f $@.new $@

$(OUT)/module_12.o: $(SOURCES)/module_12.c $(SOURCES)/module.h $(OUT)/how
	@$(COMPILE) $(SOURCES)/module_12.c -o $@.new
	@mv -f $@.new $@

$(OUT)/module_13.o: $(SOURCES)/module_13.c $(SOURCES)/module.h $(OUT)/how
	@$(COMPILE) $(SOURCES)/module_13.c -o $@.new
	@mv -f $@.new $@

$(OUT)/module_14.o: $(SOURCES)/module_14.c $(SOURCES)/module.h $(OUT)/how
	@$(COMPILE) $(SOURCES)/module_14.c -o $@.new
	@mv -f $@.new $@

$(OUT)/module_15.o: $(SOURCES)/module_15.c $(SOURCES)/module.h $(OUT)/how
	@$(COMPILE) $(SOURCES)/module_15.c -o $@.new
	@mv -f $@.new $@

$(OUT)/module_16.o: $(SOURCES)/module_16.c $(SOURCES)/module.h $(OUT)/how
	@$(COMPILE) $(SOURCES)/module_16.c -o $@.new
	@mv -f $@.new $@

$(OUT)/module_data.o: $(SOURCES)/module_data.c $(SOURCES)/module.h $(OUT)/how
	@$(COMPILE) $(SOURCES)/module_data.c -o $@.new
	@mv -f $@.new $@

$(OUT)/system.o: $(SOURCES)/system.c $(SOURCES)/module.h $(OUT)/how
	@$(COMPILE) $(SOURCES)/system.c -o $@.new
	@mv -f $@.new $@
