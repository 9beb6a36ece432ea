# How the programs of `make speed` and `make others` are built; the Makefile above includes it.

# The anchor has flags of its own: those with which it is fastest.
build/speed/baseline.o: SPEED_FLAGS = -O3 -fno-tree-loop-distribute-patterns -fno-gcse -fno-crossjumping \
  -falign-functions=64 -Wa,-mbranches-within-32B-boundaries
build/speed/rules_duktape.o: SPEED_FLAGS = -O2 $(shell pkg-config --cflags duktape)
SPEED_CC = @mkdir -p build/speed && gcc $(or $(SPEED_FLAGS),-O2) -Wall -Wextra -Ibuild
SPEED_COMMON = $(patsubst %,build/speed/%.o,work programs measure table baseline) build/libremus.a

build/speed/%.o: speed/%.c $(wildcard speed/*.h) include/remus.h
	$(SPEED_CC) -c $< -o $@

build/speed/speed: build/speed/speed.o build/speed/stack.o build/speed/texts.o $(SPEED_COMMON)
	@gcc $^ -o $@

build/speed/others: $(patsubst %,build/speed/%.o,others rules_c rules_duktape lua luajit) $(SPEED_COMMON)
	@gcc $^ -o $@ $$(pkg-config --libs duktape) -lm -ldl

# Both Luas have the same names: each is linked with its rules into an object that shows nothing but its engine.
build/speed/lua.o: SPEED_FLAGS = -O2 $(shell pkg-config --cflags lua5.4)
build/speed/lua.o: LUA = $(shell pkg-config --variable=libdir lua5.4)/liblua5.4.a
build/speed/luajit.o: SPEED_FLAGS = -O2 -DJIT $(shell pkg-config --cflags luajit)
build/speed/luajit.o: LUA = $(shell pkg-config --variable=libdir luajit)/libluajit-5.1.a
build/speed/lua.o build/speed/luajit.o: build/speed/%.o: speed/rules_lua.c speed/rules.h
	$(SPEED_CC) -c $< -o build/speed/$*_rules.o
	@ld -r build/speed/$*_rules.o $(LUA) -o $@
	@objcopy --keep-global-symbol=$* $@
