# make            proves and builds the library, builds the command, and puts both under build/
# make check      runs the gate, which took 26 to 53 minutes when measured with the older kit
# make install    PREFIX=/usr/local DESTDIR=; needs no root where PREFIX is yours, and builds nothing that is fresh
# make uninstall  with the same PREFIX and DESTDIR
# make clean      removes build/ and rust/target; the proved library in crates/*/out stays, since proofs take minutes
#
# A shared library in a new folder is found after ldconfig, which is the administrator's to run.

RT = rt
CARGO = cargo
INSTALL = install
INSTALL_PROGRAM = $(INSTALL) -m 755
INSTALL_DATA = $(INSTALL) -m 644

PREFIX = /usr/local
BINDIR = $(PREFIX)/bin
INCLUDEDIR = $(PREFIX)/include
LIBDIR = $(PREFIX)/lib
PKGCONFIGDIR = $(LIBDIR)/pkgconfig
MANDIR = $(PREFIX)/share/man
MAN1DIR = $(MANDIR)/man1

# Where rt and cargo leave what they build.
PROVED := crates/seamwillow/out/libseamwillow.a
COMPILED := rust/target/release/seamwillow

# What is packed. Another file named here is taken as it is: neither rt nor cargo is run for it.
ARCHIVE = $(PROVED)
COMMAND = $(COMPILED)

BUILD = build
# The number rises when a program linked against the older library would no longer run rightly.
SONAME := libseamwillow.so.0
VERSION := $(shell sed -n 's/^version = "\(.*\)"/\1/p' rust/Cargo.toml)
PRODUCTS = $(addprefix $(BUILD)/,seamwillow libseamwillow.a $(SONAME) libseamwillow.so seamwillow.pc)

# Folders are among them, so that a file that was removed or renamed shows too; not a crate's own, where rt makes out/.
PROVED_FROM := crates.txt $(shell find crates/*/src crates/*/specs crates/*/proofs)
COMPILED_FROM := rust/Cargo.toml rust/Cargo.lock $(shell find rust/library rust/command/Cargo.toml rust/command/src)

.DELETE_ON_ERROR:
.PHONY: all check install uninstall clean FORCE

all: $(PRODUCTS)

# Touched, since a tool that finds nothing to do leaves its file as old as it was.
$(PROVED): $(PROVED_FROM)
	cd crates/seamwillow && $(RT) lib
	@touch $@

# The command is always linked with the library that rt wrote.
$(COMPILED): $(PROVED) $(COMPILED_FROM)
	cd rust && $(CARGO) build --release --offline --locked -p seamwillow --target-dir target
	@touch $@

$(BUILD):
	mkdir -p $@

$(BUILD)/seamwillow: $(COMMAND) | $(BUILD)
	$(INSTALL_PROGRAM) $< $@

$(BUILD)/libseamwillow.a: $(ARCHIVE) | $(BUILD)
	$(INSTALL_DATA) $< $@

# The archive is position-independent; no program refers to its members here, so all are asked for.
$(BUILD)/$(SONAME): $(BUILD)/libseamwillow.a
	$(CC) -shared $(LDFLAGS) -Wl,-soname,$(SONAME) -Wl,-z,noexecstack -Wl,-z,defs \
	    -Wl,--whole-archive $< -Wl,--no-whole-archive -o $@

# A copy here and a link where it is installed: rt ci refuses a link anywhere in the checkout.
$(BUILD)/libseamwillow.so: $(BUILD)/$(SONAME)
	$(INSTALL_PROGRAM) $< $@

# ${prefix} stays in the paths, so that pkg-config can be told of another one.
export define PC_TEXT
prefix=$(PREFIX)
includedir=$(patsubst $(PREFIX)/%,$${prefix}/%,$(INCLUDEDIR))
libdir=$(patsubst $(PREFIX)/%,$${prefix}/%,$(LIBDIR))

Name: seamwillow
Description: What a configuration stream does to a Spartan-3 part, proved
Version: $(VERSION)
Cflags: -I$${includedir}
Libs: -L$${libdir} -lseamwillow
endef

# It names PREFIX, which may be another one today; it is written only where its text changes.
$(BUILD)/seamwillow.pc: FORCE | $(BUILD)
	@printf "%s\n" "$$PC_TEXT" | cmp -s - $@ || printf "%s\n" "$$PC_TEXT" > $@

check:
	bash .ci/run

install: all
	$(INSTALL) -d "$(DESTDIR)$(BINDIR)" "$(DESTDIR)$(INCLUDEDIR)" "$(DESTDIR)$(LIBDIR)" \
	    "$(DESTDIR)$(PKGCONFIGDIR)" "$(DESTDIR)$(MAN1DIR)"
	$(INSTALL_PROGRAM) $(BUILD)/seamwillow "$(DESTDIR)$(BINDIR)"
	$(INSTALL_DATA) include/seamwillow.h "$(DESTDIR)$(INCLUDEDIR)"
	$(INSTALL_DATA) $(BUILD)/libseamwillow.a "$(DESTDIR)$(LIBDIR)"
	$(INSTALL_PROGRAM) $(BUILD)/$(SONAME) "$(DESTDIR)$(LIBDIR)"
	ln -sf $(SONAME) "$(DESTDIR)$(LIBDIR)/libseamwillow.so"
	$(INSTALL_DATA) $(BUILD)/seamwillow.pc "$(DESTDIR)$(PKGCONFIGDIR)"
	$(INSTALL_DATA) man/seamwillow.1 "$(DESTDIR)$(MAN1DIR)"

# Folders stay: others may have put something into them.
uninstall:
	rm -f "$(DESTDIR)$(BINDIR)/seamwillow" "$(DESTDIR)$(INCLUDEDIR)/seamwillow.h" \
	    "$(DESTDIR)$(LIBDIR)/libseamwillow.a" "$(DESTDIR)$(LIBDIR)/$(SONAME)" "$(DESTDIR)$(LIBDIR)/libseamwillow.so" \
	    "$(DESTDIR)$(PKGCONFIGDIR)/seamwillow.pc" "$(DESTDIR)$(MAN1DIR)/seamwillow.1"

# By name, so that a BUILD with other files in it loses none of them.
clean:
	rm -f $(PRODUCTS)
	-[ ! -d $(BUILD) ] || rmdir $(BUILD)
	cd rust && $(CARGO) clean --offline --target-dir target
