# Shared by the scripts here: what a script needs and does not find is said, with how to get it, and ends it with 2.
needs() { # NAME OF A PROGRAM OR A FILE, HOW TO GET IT
    command -v "$1" >/dev/null || [ -f "$1" ] || { echo "$(basename "$0"): $1 is not there: $2" >&2 && exit 2; }
}
needs_rustc() { needs rustc 'install it (Debian 13: apt install rustc; elsewhere: https://rustup.rs)'; }
