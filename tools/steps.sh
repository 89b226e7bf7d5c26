# shellcheck shell=bash disable=SC2034,SC2154
# Steps that build and test share: what they need, installed as Debian packages where it is missing, the library and
# the programs.
# To be sourced in the repository's root; `me` is the name under which messages are given.

# MESSAGE: says it and ends.
give_up() {
    echo "$me: $1" >&2
    exit 2
}

# PACKAGE...: installs them.
install() {
    echo "$me: installing $*"
    { apt-get update && apt-get install -y "$@"; } >/dev/null || give_up "$* cannot be installed"
}

# COMMAND PACKAGE: installs the package where the command is missing.
need() {
    command -v "$1" >/dev/null || install "$2"
}

. tools/machine.sh
rust_wanted=$(sed -nE 's/^rust-version = "([0-9.]+)"$/\1/p' host/Cargo.toml)
packaged_cargo=/usr/bin/cargo
# the README and the tests look for the programs there, whatever the user has set
export CARGO_TARGET_DIR="$PWD/host/target"

# Reads a version's numbers from what a program or a package list says.
version() {
    sed -nE '1s/^[^0-9]*([0-9]+(\.[0-9]+)*).*/\1/p'
}

# VERSION: whether the host's programs can be built with a Rust of this version.
new_enough() {
    [ -n "$1" ] && printf '%s\n' "$rust_wanted" "$1" | sort -V -C
}

# CARGO: whether this cargo and the rustc beside it are new enough; sets cargo, and the compiler that it is to use. An
# old cargo may have a new number or stand before an old rustc, so both are asked.
serves() {
    local folder
    folder=$(dirname "$1")
    [ -x "$folder/rustc" ] || return 1
    new_enough "$("$1" --version 2>/dev/null | version)" || return 1
    new_enough "$("$folder/rustc" --version 2>/dev/null | version)" || return 1
    has_library "$folder/rustc" || return 1
    cargo=$1
    export RUSTC="$folder/rustc" RUSTDOC="$folder/rustdoc"
}

# Finds a cargo that is new enough, or installs the package that has one: Debian 12 has it as cargo-web, Debian 13 as
# cargo. It is used by its path, since an older one may stand before it on PATH.
need_cargo() {
    local found package
    for found in "$(command -v cargo)" "$packaged_cargo"; do
        if [ -n "$found" ] && serves "$found"; then return 0; fi
    done
    echo "$me: there is no cargo $rust_wanted or newer${emulated:+ that builds for x86-64}"
    add_architecture
    apt-get update >/dev/null || give_up "the lists of packages cannot be read"
    for package in cargo cargo-web; do
        if new_enough "$(apt-cache policy "$package" | sed -n 's/^ *Candidate: *//p' | version)"; then
            # shellcheck disable=SC2046
            install "$package" $(library_package "$package")
            serves "$packaged_cargo" || give_up "$package was installed, but $packaged_cargo does not serve"
            return 0
        fi
    done
    give_up "no package has cargo $rust_wanted or newer: install Rust by hand, so that its cargo is on PATH"
}

# CRATE: the archive of a static library, made of its proved code, in target/staticlib. The code is for every x86-64
# processor: without --cpu it would need one with SSE4.2, and an archive cannot look.
make_archive() {
    (cd "crates/$1" && rt lib --cpu=x86-64) && mkdir -p target/staticlib && cp "crates/$1/out/lib$1.a" target/staticlib/
}

# The library of the proved code, as an archive and as a shared object; and the searches alone, which bench measures.
make_library() {
    make_archive abi && make_archive searches &&
        "$HULL_GCC" -shared -o target/libhullplaiter.so -Wl,--whole-archive target/staticlib/libabi.a -Wl,--no-whole-archive
}

# The proved programs, for every x86-64 processor too, in target/bin. `rt` makes a program where it runs it: here on the
# input that is kept with it.
make_proved_programs() {
    local program
    mkdir -p target/bin || return
    for program in objects replay; do
        (cd "crates/$program" && rt run --cpu=x86-64 <stdin >/dev/null) && cp "crates/$program/out/$program" target/bin/ || return
    done
}

# The host's programs, in host/target/release. Cargo puts those of another machine elsewhere; there they are links.
make_programs() {
    local program
    (cd host && "$cargo" build --offline --release) || return
    [ -n "$emulated" ] || return 0
    find "host/target/$x86_64/release" -maxdepth 1 -type f -executable -printf '%f\n' |
        while IFS= read -r program; do
            ln -sf "../$x86_64/release/$program" "host/target/release/$program" || return
        done
}
