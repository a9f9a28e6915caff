# What is made of all this. docs/EMBEDDING.md says how each is used.
#
#     make dist         packages in dist/, of the program and the library that the gate built (tools/dist.py)
#     make try_dist     tries such packages in empty folders, without the kit
#     make install      headers and library below PREFIX; it proves them first, where that isn't done (c_interface/Makefile)
#     make gate         proves and tests all (tools/gate.sh)
dist:
	tools/dist.py

try_dist:
	tools/try_dist.py

install:
	$(MAKE) -C c_interface install

gate:
	tools/gate.sh

.PHONY: dist try_dist install gate
