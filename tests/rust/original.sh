# What tests/rules-against-rust and tests/stream-against-rust share: the original's files are found, laid out beside ours
# and compiled unchanged under the stand-ins of tests/rust/. Sourced. The caller has `here` (this repository's tests/),
# `root`, `sources` ('' where none are named) and the words `say`, `fail` and `skip`.

originals='cache/coord_cache cache/entry cache/mod identity/node_addr proto/coord utils/hash'

# Sets `sources`, or ends the run where the original cannot be compiled here.
find_sources() {
    command -v rustc >/dev/null || skip "there is no rustc, which compiles the original"
    if [ -z "$sources" ]; then
        sources=$root/../shared/docs/src
        [ -d "$sources" ] || skip "the original's sources are not at ../shared/docs/src (name their folder by --sources)"
    fi
    [ -d "$sources" ] || fail "there is no folder $sources"
}

# Prints where an original file stands, in a checkout or in a folder of flat names.
original() { # NAME, as cache/entry
    local path=core/src/$1.rs
    local flat=$sources/src--${path//\//--}.txt
    if [ -f "$sources/$path" ]; then echo "$sources/$path"
    elif [ -f "$flat" ]; then echo "$flat"
    else fail "$sources has neither $path nor $(basename "$flat")"
    fi
}

# Copies the original files and ours to where each finds the others.
lay_out() { # FOLDER [OUR FOLDER OF A FURTHER MODULE]
    local name from
    rm -rf "$1"
    mkdir -p "$1"/{cache/tests,identity,proto,utils/tests,driver}
    for name in $originals; do
        from=$(original "$name")
        cp "$from" "$1/$name.rs"
    done
    # the test modules that the originals declare: ours sees the cache's private parts, the others are empty
    cp "$here/rust/inside.rs" "$1/cache/tests/coord_cache.rs"
    touch "$1/cache/tests/mod.rs" "$1/cache/tests/entry.rs" "$1/utils/tests/hash.rs"
    cp "$here/rust/root.rs" "$1/main.rs"
    cp "$here"/rust/{driver,functions,numbers}.rs "$1/"
    cp "$here"/rust/driver/*.rs "$1/driver/"
    [ -z "${2:-}" ] || cp -R "$2" "$1/"
}

# Compiles the stand-ins to lib/ of the folder one stands in.
stand_ins() { # RUSTC'S WORDS..
    local name type
    for name in thiserror hashbrown siphasher secp256k1; do
        type=rlib
        [ "$name" != thiserror ] || type=proc-macro
        rustc --edition 2024 --crate-type "$type" --crate-name "$name" "$@" --out-dir lib "$here/rust/stand-ins/$name.rs" || return 1
    done
}

# Compiles src/ over lib/ of the folder one stands in: test and test-hooks as the original's own tests have them.
compile_driver() { # OUT RUSTC'S WORDS..
    local out=$1
    shift
    rustc --edition 2024 --crate-name driver -A explicit_builtin_cfgs_in_flags --cfg test --cfg 'feature="test-hooks"' \
        "$@" -L dependency=lib --extern thiserror="$(echo lib/libthiserror.*)" \
        --extern hashbrown=lib/libhashbrown.rlib --extern siphasher=lib/libsiphasher.rlib --extern secp256k1=lib/libsecp256k1.rlib \
        -o "$out" src/main.rs
}

# What a driver is made of, as one line; where it has not changed the driver is not compiled again.
made_of() { # FOLDER OF src/, FILES..
    local folder=$1
    shift
    { rustc -V; cat "$0" "$here/rust/original.sh" "$here"/rust/stand-ins/*.rs "$@"; cd "$folder" && find src -type f -exec sha256sum {} + | sort; } | sha256sum
}

# One run at a time in a folder; the lock ends with this process.
alone() { # FOLDER
    exec 9>"$1/lock"
    if command -v flock >/dev/null && ! flock -n 9; then
        say "waiting for another run to end" >&2
        flock 9
    fi
}
