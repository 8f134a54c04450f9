# Shared by the scripts here, which run at the repository's top: the archive of the decoder, and the crates of the command. What a script needs and does
# not find is said, with how to get it, and ends it with 2. MPEG1_ARCHIVE, if it is set, is the absolute path of an archive that was made
# elsewhere.
archive=${MPEG1_ARCHIVE:-$PWD/target/staticlib/libmpeg1.a}

say() { echo "$(basename "$0"): $*" >&2; }

needs() { # PROGRAM, HOW TO GET IT
    command -v "$1" >/dev/null || { say "$1 is not there: $2" && exit 2; }
}

needs_cargo() { needs cargo 'install it (Debian 13: apt install cargo; Debian 12: apt install cargo-web; elsewhere: https://rustup.rs)'; }

# The archive, proved and built from what is in crates/, if anything there is newer.
make_archive() {
    if [ -n "${MPEG1_ARCHIVE:-}" ]; then
        [[ $MPEG1_ARCHIVE = /* && -f $MPEG1_ARCHIVE ]] || { say "MPEG1_ARCHIVE is $MPEG1_ARCHIVE and has to be the absolute path of a file" && exit 2; }
        return
    fi
    [ ! -f "$archive" ] || [ -n "$(find crates.txt crates/*/{src,specs,proofs} -newer "$archive" -print -quit 2>/dev/null)" ] || return 0
    needs rt 'it proves and builds the decoder (README.md, What is needed); or set MPEG1_ARCHIVE to the path of a libmpeg1.a'
    say 'proving and building the decoder; the first time this takes long'
    hosts/archive mpeg1 >&2
}

packages='librust-clap-dev librust-indicatif-dev librust-md-5-dev librust-png-dev librust-y4m-dev'
registry=/usr/share/cargo/registry
from_system=(--offline --config 'source.crates-io.replace-with="system"' --config "source.system.directory=\"$registry\"")

# Runs apt-get where that needs no password.
install_packages() {
    command -v apt-get >/dev/null || return 1
    local root=()
    [ "$(id -u)" = 0 ] || root=(sudo -n)
    say "installing $packages"
    "${root[@]}" apt-get install -qq --no-install-recommends $packages >&2 && return
    "${root[@]}" apt-get update -qq >&2
    "${root[@]}" apt-get install -qq --no-install-recommends $packages >&2
}

# Sets `crates` to what cargo has to be told, in the folder of the command: crates.io, or where that is not reached the system's packages.
find_crates() {
    crates=()
    CARGO_NET_RETRY=0 CARGO_HTTP_TIMEOUT=20 cargo fetch --quiet 2>/dev/null && return
    crates=("${from_system[@]}")
    rm -f Cargo.lock
    cargo generate-lockfile --quiet "${crates[@]}" 2>/dev/null && return
    say 'crates.io is not reached, and not all crates of the command are among the packages of the system'
    install_packages || { say "as root: apt-get install $packages" && exit 2; }
    cargo generate-lockfile --quiet "${crates[@]}"
}
