#!/usr/bin/env bash
# Sourced: what builds and runs x86-64 programs here, which is all that the toolchain writes. On another processor that is a cross compiler, Rust's x86-64 target and an emulator.
emulator=()
c_compiler=gcc
c_linked=()
kit_tools=
if [ "$(uname -m)" != x86_64 ]; then
  # The kit has an emulator and a loader, with which it runs programs itself.
  kit_tools=$(dirname "$(readlink -f "$(command -v rt)")")/../on/$(uname -m)/toolchain
  c_compiler=x86_64-linux-gnu-gcc
  c_linked=(-static)
  emulator=("$(command -v qemu-x86_64 || echo "$kit_tools/bin/qemu-x86_64")")
  export CARGO_BUILD_TARGET=x86_64-unknown-linux-gnu
fi

# What cargo links and runs x86-64 programs with.
set_cargo_for_x86_64() {
  export CARGO_TARGET_X86_64_UNKNOWN_LINUX_GNU_LINKER=$c_compiler
  export CARGO_TARGET_X86_64_UNKNOWN_LINUX_GNU_RUNNER="${emulator[0]} -L /usr/x86_64-linux-gnu"
}
[ -z "$kit_tools" ] || set_cargo_for_x86_64

# Whether Rust programs for x86-64 can be built and run here: one that does nothing tells.
runs_rust_for_x86_64() {
  local try
  [ -n "$kit_tools" ] || return 0
  try=$(mktemp -d)
  echo 'fn main() {}' >"$try/nothing.rs"
  "${RUSTC:-rustc}" --target "$CARGO_BUILD_TARGET" -C linker="$c_compiler" -o "$try/nothing" "$try/nothing.rs" 2>/dev/null \
    && "${emulator[@]}" -L /usr/x86_64-linux-gnu "$try/nothing" 2>/dev/null
  local status=$?
  rm -r "$try"
  return "$status"
}

# Where the machine's own Rust cannot, that of Debian's packages is unpacked under target/; nothing of the machine changes.
get_rust_for_x86_64() {
  local folder=$PWD/target/x86_64_rust
  runs_rust_for_x86_64 && return
  command -v apt-get >/dev/null && timeout 300 bash .ci/x86_64_rust "$folder" >/dev/null 2>&1 || return 0
  export PATH=$folder/bin:$PATH RUSTC=$folder/bin/rustc RUSTDOC=$folder/bin/rustdoc
  emulator=("$folder/bin/qemu-x86_64")
  set_cargo_for_x86_64
}

# Each of these says on standard output what is missing here, and nothing where all is there.

lacks_emulator() {
  [ "${#emulator[@]}" = 0 ] || command -v "${emulator[0]}" >/dev/null || echo "an emulator for x86-64 (qemu-x86_64)"
}

# A missing cross compiler is installed where that can be done.
lacks_c_for_x86_64() {
  if ! command -v "$c_compiler" >/dev/null && [ "$(id -u)" = 0 ] && command -v apt-get >/dev/null; then
    (apt-get update && apt-get install -y gcc-x86-64-linux-gnu libc6-dev-amd64-cross) >/dev/null 2>&1 || true
  fi
  command -v "$c_compiler" >/dev/null || echo "a C compiler for x86-64 ($c_compiler)"
  lacks_emulator
}

lacks_rust_for_x86_64() {
  runs_rust_for_x86_64 || echo "a Rust whose programs for x86-64 run here"
}

# One line that says what was not run here and for want of what.
not_run() {
  echo "NOT RUN: $1, for want of $(paste -sd ';' <<<"$2" | sed 's/;/ and /g')"
}
