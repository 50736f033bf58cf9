#!/usr/bin/env bash
# tools/panics.sh: lists the functions of the Rust crates that can panic when they are compiled with optimisation.
#
# It compiles a program that calls every reader on 8-bit and on 16-bit text (tools/panics.rs), without the standard library. Then it
# searches the linked program for calls of a panic. There are three programs: `readers` calls the readers, `display` the functions
# that write errors, and `printer` the printer. For each program, the script prints the functions that can panic, or that there is
# none. The exit status is 1 if a function can panic. RUSTC in the environment is the compiler, if you do not want `rustc`.
set -euo pipefail
cd "$(dirname "$0")/.."
work=$(mktemp -d)
trap 'rm -rf "$work"' EXIT
compile() { ${RUSTC:-rustc} --edition 2021 -C opt-level=3 -C panic=abort -C relocation-model=static -L "$work" "$@"; }
compile --crate-type rlib --crate-name ixdtf --out-dir "$work" rust/ixdtf/src/lib.rs
compile --crate-type rlib --crate-name ixdtf_print --cap-lints allow --extern ixdtf="$work/libixdtf.rlib" \
  --out-dir "$work" rust/ixdtf_print/src/lib.rs
status=0
for part in readers display printer; do
  compile --cfg $part --cap-lints allow --extern ixdtf="$work/libixdtf.rlib" --extern ixdtf_print="$work/libixdtf_print.rlib" \
    -C link-arg=-nostartfiles -C link-arg=-lc -C link-arg=-Wl,--gc-sections -o "$work/program" tools/panics.rs
  found=$(objdump -d --demangle=rust --no-show-raw-insn "$work/program" | awk '
    /^[0-9a-f]+ <.*>:$/ { name = $0; sub(/^[0-9a-f]+ </, "", name); sub(/>:$/, "", name) }
    /\t.*<(core::panicking|core::slice::index::slice|core::option::(unwrap|expect)|core::result::unwrap|core::str::slice_error)/ {
      called = $0; sub(/.*</, "", called); sub(/(\+0x[0-9a-f]+)?>.*/, "", called)
      if (name !~ /^core::(panicking|slice|option|result|str)/) print "  " name " calls " called }' | sort | uniq -c)
  if [ -n "$found" ]; then
    printf '%s: these functions can panic when they are compiled with optimisation\n%s\n' "$part" "$found"
    status=1
  else
    echo "$part: no function can panic when it is compiled with optimisation"
  fi
done
exit $status
