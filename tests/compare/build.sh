# Shared by the scripts here and in tests/others: builds the program that compares, or says what it lacks and ends with 2. Wants to be in this folder.
# MPEG1_ARCHIVE, if it is set, is the absolute path of a libmpeg1.a that was made elsewhere.
. ../oracle/needs.sh
archive=${MPEG1_ARCHIVE:-../../target/staticlib/libmpeg1.a}

# rustc_compare MAIN PROGRAM: links the archive of crates/mpeg1.
rustc_compare() {
  rustc --edition 2021 -C opt-level=3 -L native="$(dirname "$archive")" -l static=mpeg1 -o "$2" "$1"
}

build_compare() {
  needs_rustc
  mkdir -p target
  if [ -z "${MPEG1_ARCHIVE:-}" ]; then
    needs rt 'it is the command of the Rattle kit (README.md, "What is needed")'
    ../../hosts/archive mpeg1 > target/staticlib.log 2>&1 || { tail -n 20 target/staticlib.log; exit 1; }
  fi
  needs "$archive" 'it is the archive that MPEG1_ARCHIVE names'
  ./asking > target/asking.rs
  rustc_compare main.rs target/compare
}
