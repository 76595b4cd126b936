#!/bin/sh
# Holds the C header to the static library: its constants and limits, plans, NULL with length 0, that the library calls nothing but memcpy
# and memset, and that a host does not link where the layout's number is another one. The header has to be C99, and C++ where there is a
# compiler for it.
set -eu
cd "$(dirname "$0")/../.."
library=target/staticlib/libhost_calls.a
room=$(mktemp -d)
trap 'rm -rf "$room"' EXIT
flags="-std=c11 -Wall -Wextra -Werror"

# With the compiler's checks of the C side, where it has them.
sanitize=-fsanitize=address,undefined
echo 'int main(void) { return 0; }' >"$room/probe.c"
gcc $sanitize "$room/probe.c" -o "$room/probe" 2>/dev/null && "$room/probe" || sanitize=
gcc $flags $sanitize -Iinclude tools/surface/surface.c "$library" -o "$room/surface"
"$room/surface"

# The library calls nothing from outside but memcpy and memset.
if command -v nm >/dev/null 2>&1; then
    nm -u "$library" | sed -n 's/^ *U //p' >"$room/calls"
    test -s "$room/calls"
    if grep -vxE 'memcpy|memset' "$room/calls"; then
        echo "the library calls more than memcpy and memset"
        exit 1
    fi
fi

# A host that only lists, one that only walks, and one that has a table: each links with the header's number and not with another one,
# whatever the linker drops.
cat >"$room/lists.c" <<'C'
#include "wuraketozo.h"
int main(void) { uint8_t list[1]; wuraketozo_extent none = {0, 0}; return (int)wuraketozo_list(0, 0, 0, none, list, 1).refusal; }
C
cat >"$room/walks.c" <<'C'
#include "wuraketozo.h"
int main(void) { wuraketozo_original_extent none = {0, 0}; return (int)wuraketozo_renext(0, 0, WURAKETOZO_READ, none).found; }
C
cat >"$room/table.c" <<'C'
#include "wuraketozo.h"
static const uint64_t plans[2] = {1, 8};
static wuraketozo_client records[2];
static uint8_t store[WURAKETOZO_SHARE(1) + WURAKETOZO_SHARE(8)];
int main(void)
{
    return wuraketozo_plan(records, plans, 2) != sizeof store || wuraketozo_reset(records, 2, store, sizeof store).refusal != 0;
}
C
number=$(sed -n 's/^size_t wuraketozo_layout_\([0-9]*\)(void);$/\1/p' include/wuraketozo.h)
mkdir "$room/include"
sed "s/wuraketozo_layout_$number/wuraketozo_layout_$((number + 1))/g" include/wuraketozo.h >"$room/include/wuraketozo.h"
for host in lists walks table; do
    for how in -O0 "-O2 -ffunction-sections -fdata-sections -Wl,--gc-sections"; do
        gcc $flags $how -Iinclude "$room/$host.c" "$library" -o "$room/$host"
        "$room/$host"
        if gcc $flags $how -I"$room/include" "$room/$host.c" "$library" -o "$room/$host" 2>"$room/log"; then
            echo "$host links with another layout's number ($how)"
            exit 1
        fi
        grep -q "undefined reference to .wuraketozo_layout_$((number + 1))" "$room/log" || { cat "$room/log"; exit 1; }
    done
done

# A host in C99 and one in C++.
strict="-Wall -Wextra -Werror -pedantic"
gcc -std=c99 $strict -Iinclude "$room/table.c" "$library" -o "$room/table"
"$room/table"
if command -v g++ >/dev/null 2>&1; then
    for standard in c++98 c++17; do
        g++ -x c++ -std=$standard $strict -Iinclude -c "$room/table.c" -o "$room/table.o"
        g++ "$room/table.o" "$library" -o "$room/table"
        "$room/table"
    done
fi

# A host in Rust: it does not link against a library whose symbol has another number.
if command -v cargo >/dev/null 2>&1 && command -v objcopy >/dev/null 2>&1; then
    mkdir "$room/lib"
    objcopy --redefine-sym "wuraketozo_layout_$number=wuraketozo_layout_$((number + 1))" "$library" "$room/lib/libhost_calls.a"
    if WURAKETOZO_LIB=$room/lib CARGO_TARGET_DIR=$room/rust \
        cargo build --quiet --offline --example gauges --manifest-path rust/wuraketozo/Cargo.toml 2>"$room/log"; then
        echo "the wrapper for Rust links with another layout's number"
        exit 1
    fi
    grep -q "wuraketozo_layout_$number" "$room/log" || { cat "$room/log"; exit 1; }
fi
echo "a host of another layout does not link"
