#!/usr/bin/env bash
# What Rattle compiles, target/bin/* and target/staticlib/libentry.a, is for x86-64. On an x86-64 machine this file does nothing. On any other
# it sees to what such programs need: an emulator that the kernel calls by itself (qemu, by binfmt_misc), the C library that they load, and
# compilers of C and Rust for x86-64, which it names to make and cargo in the environment.
#
#   . .ci/x86-64.sh          sets up what is missing, for which it has to be root (Debian's packages); the gate calls it so
#   .ci/x86-64.sh look       changes nothing, and says what is missing; the Makefile calls it so, and needs no Rust
x86_64_packages='qemu-user gcc-x86-64-linux-gnu libc6-dev-amd64-cross libc6:amd64 rustc-web libstd-rust-web-dev:amd64'

# a program in C, and with the word `rust` one in Rust, compiled and run
x86_64_runs() {
  local room status=0
  room=$(mktemp -d)
  echo 'int main(void) { return 0; }' > "$room/c.c"
  echo 'fn main() {}' > "$room/rust.rs"
  { x86_64-linux-gnu-gcc "$room/c.c" -o "$room/c" && "$room/c"; } 2> "$room/said" || status=1
  if [ "${1:-}" = rust ] && [ "$status" = 0 ]; then
    { /usr/bin/rustc --target x86_64-unknown-linux-gnu -C linker=x86_64-linux-gnu-gcc -o "$room/rust" "$room/rust.rs" && "$room/rust"; } \
      2> "$room/said" || status=1
  fi
  head -n 3 "$room/said"
  rm -rf "$room"
  return "$status"
}

x86_64_set_up() {
  local formats=/proc/sys/fs/binfmt_misc
  export DEBIAN_FRONTEND=noninteractive
  # shellcheck disable=SC2086
  if ! dpkg -s $x86_64_packages > /dev/null 2>&1; then
    dpkg --add-architecture amd64
    apt-get update -qq
    apt-get install -y -qq --no-install-recommends $x86_64_packages > /dev/null
  fi
  [ -e "$formats/register" ] || mount -t binfmt_misc binfmt_misc "$formats"
  # the head of an x86-64 program, what of it counts, and who runs it (the kernel reads the \x)
  [ -e "$formats/x86_64-linux" ] || printf '%s' ':x86_64-linux:M::\x7fELF\x02\x01\x01\x00\x00\x00\x00\x00\x00\x00\x00\x00\x02\x00\x3e\x00:\xff\xff\xff\xff\xff\xfe\xfe\x00\xff\xff\xff\xff\xff\xff\xff\xff\xfe\xff\xff\xff:/usr/bin/qemu-x86_64:' > "$formats/register"
}

x86_64_missing() {
  echo "This machine is $(uname -m), and what Rattle compiles is for x86-64: such a program could not be compiled and run here."
  echo "As root, '.ci/x86-64.sh' sets up what it needs, Debian's packages $x86_64_packages,"
  echo "and qemu registered with the kernel (/proc/sys/fs/binfmt_misc)."
} >&2

if [ "$(uname -m)" != x86_64 ]; then
  if [ "${1:-}" = look ]; then
    x86_64_runs || { x86_64_missing; exit 1; }
  else
    # whatever fails in setting up, the second look tells
    x86_64_runs rust > /dev/null || [ "$(id -u)" != 0 ] || x86_64_set_up || true
    x86_64_runs rust || { x86_64_missing; exit 1; }
    export CC=x86_64-linux-gnu-gcc RUSTC=/usr/bin/rustc RUSTDOC=/usr/bin/rustdoc
    export CARGO_BUILD_TARGET=x86_64-unknown-linux-gnu CARGO_TARGET_X86_64_UNKNOWN_LINUX_GNU_LINKER=x86_64-linux-gnu-gcc
    echo "This machine is $(uname -m): x86-64 programs run under an emulator"
  fi
fi
