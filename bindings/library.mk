# Shared by the Makefiles of programs that are linked with the static libraries: the libraries, and
# the folder for the built files. A library is the one that bindings/c/library.py built from proved
# crates; without it, the one that make at the top of the repository builds from dist/.
TOP := ../..
LIB := $(or $(wildcard $(TOP)/crates/pie_c/out/libpie_c.a),$(TOP)/build/libpie_c.a)
LINK_LIB := $(or $(wildcard $(TOP)/crates/pie_link_c/out/libpie_link_c.a),$(TOP)/build/libpie_link.a)
OUT := out

$(TOP)/build/%.a:
	$(MAKE) -C $(TOP) build/$*.a

$(OUT):
	mkdir -p $@

clean:
	rm -rf $(OUT)

.PHONY: clean
