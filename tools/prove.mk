# Proves the packer's crates, each behind those that it cites, several at once, and says of each how long it took. `make library` calls it:
#     make -j NUMBER -f tools/prove.mk

CITED := $(shell sed -n 's/^archive staticlib://p' crates.txt)
ALL := $(words $(CITED) archive)
PROVED = target/proved

# The crates that crate $(1) cites, and its sources.
cited = $(shell sed -n 's/^$(1)\( staticlib\)\{0,1\}://p' crates.txt)
sources = $(shell find crates/$(1) -path 'crates/$(1)/out' -prune -o \( -name '*.rt' -o -name '*.antt' \) -print)

all: $(PROVED)/archive

# The static library runs on every x86-64: without the flag it would be compiled for x86-64-v2, and does not look what processor it meets.
flags-archive = --cpu x86-64

# A file for each crate that is proved. What the checker says is kept beside it, and shown where it refuses.
define proving
$(PROVED)/$(1): $(addprefix $(PROVED)/,$(call cited,$(1))) $(call sources,$(1)) crates.txt
	@mkdir -p $(PROVED)/logs; start=$$$$(date +%s); \
	(cd crates/$(1) && rt lib $(flags-$(1))) > $(PROVED)/logs/$(1) 2>&1 || { cat $(PROVED)/logs/$(1) >&2; exit 1; }; \
	took=$$$$(($$$$(date +%s) - start)); \
	flock $(PROVED)/logs sh -c 'touch $$@; echo "[$$$$(find $(PROVED) -maxdepth 1 -type f | wc -l) of $(ALL)] $(1) proved, '$$$$took' s"'
endef
$(foreach crate,$(CITED) archive,$(eval $(call proving,$(crate))))
