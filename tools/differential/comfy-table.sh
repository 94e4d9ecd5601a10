# Sourced: the one way in which comfy-table is built, from its unchanged sources. The caller sets
#   rust   a checkout of comfy-table 8.0.1
#   built  a folder for the libraries; a build there is kept as long as nothing that went into it changes
#   flags  what rustc is given
# Status 3: something that the build needs can't be had.

glue=$(cd "$(dirname "${BASH_SOURCE[0]}")/glue" && pwd)
registry=/usr/share/cargo/registry

unavailable() {
    echo "comfy-table: $1" >&2
    exit 3
}

# The newest source directory of a crate that Debian packages.
packaged() {
    { ls -d "$registry/$1"-[0-9]* 2>/dev/null || true; } | sort -V | tail -n 1
}

fetch_packages() {
    [ -n "$(packaged unicode-width)" ] && [ -n "$(packaged unicode-segmentation)" ] && return
    local packages=(librust-unicode-width-dev librust-unicode-segmentation-dev)
    echo "comfy-table: installing the packages ${packages[*]} by apt-get" >&2
    { apt-get install -y "${packages[@]}" || { apt-get update && apt-get install -y "${packages[@]}"; }; } \
        </dev/null >/dev/null 2>&1 || true
    [ -n "$(packaged unicode-width)" ] && [ -n "$(packaged unicode-segmentation)" ] ||
        unavailable "no ${packages[*]} here, and they can't be installed"
}

# comfy-table uses let chains, which came with rustc 1.88.
check_compiler() {
    command -v rustc >/dev/null || unavailable "no rustc here"
    local minor
    minor=$(rustc --version | sed -n 's/^rustc 1\.\([0-9]*\)\..*/\1/p')
    [ "${minor:-0}" -ge 88 ] || unavailable "rustc 1.88 or later is needed"
}

# The oracle is worth something only if its sources are the expected ones, unchanged.
check_sources() {
    [ -f "$rust/src/utils/mod.rs" ] || unavailable "no comfy-table sources at $rust (give --rust PATH)"
    (cd "$rust" && sha256sum --check --quiet "$glue/comfy-table-8.0.1.sha256" >&2) || {
        echo "comfy-table: the sources at $rust aren't those of comfy-table 8.0.1" >&2
        exit 2
    }
}

compile() { rustc "${flags[@]}" --cap-lints allow --out-dir "$built" "$@"; }

compile_unicode() {
    compile --crate-type rlib --crate-name unicode_width --edition 2015 "$(packaged unicode-width)/src/lib.rs"
    compile --crate-type rlib --crate-name unicode_segmentation --edition 2018 \
        "$(packaged unicode-segmentation)/src/lib.rs"
}

compile_comfy_table() {
    local copy=$built/comfy_table
    mkdir -p "$copy"
    cp -r "$rust/src/." "$copy/"
    chmod -R u+w "$copy"
    cp "$glue/lib.rs" "$glue/inside.rs" "$copy/"
    cp "$glue/style_mod.rs" "$copy/style/mod.rs"
    cp "$glue/presets.rs" "$copy/style/presets.rs"
    cp "$glue/formatting_mod.rs" "$copy/utils/formatting/mod.rs"
    compile --crate-type rlib --crate-name comfy_table --edition 2024 -L "$built" \
        --extern unicode_width="$built/libunicode_width.rlib" \
        --extern unicode_segmentation="$built/libunicode_segmentation.rlib" "$copy/lib.rs"
}

comfy_table_fingerprint() {
    {
        rustc --version
        echo "${flags[@]}"
        packaged unicode-width
        packaged unicode-segmentation
        cat "$glue/../comfy-table.sh"
        (cd "$rust" && find src -name '*.rs' | LC_ALL=C sort | xargs sha256sum)
        (cd "$glue" && find . -name '*.rs' | LC_ALL=C sort | xargs sha256sum)
    } | sha256sum
}

# Leaves libcomfy_table.rlib and what it needs in $built.
build_comfy_table() {
    check_sources
    check_compiler
    fetch_packages
    local want
    want=$(comfy_table_fingerprint)
    [ "$(cat "$built/fingerprint" 2>/dev/null)" = "$want" ] && return
    # Built aside, so that a build that fails or another run never leaves half of one.
    local kept=$built
    mkdir -p "$(dirname "$kept")"
    built=$(mktemp -d "$kept.XXXXXX")
    trap 'rm -rf "$built"' EXIT
    compile_unicode
    compile_comfy_table
    echo "$want" >"$built/fingerprint"
    rm -rf "$kept"
    mv "$built" "$kept"
    trap - EXIT
    built=$kept
}

# Compiles a program that uses comfy-table: its main file, where it goes, further words for rustc.
compile_program() {
    local main=$1 program=$2
    shift 2
    rustc "${flags[@]}" --edition 2024 -L "$built" --extern comfy_table="$built/libcomfy_table.rlib" \
        -o "$program" "$@" "$main"
}
