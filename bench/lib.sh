# Builds target/bench, in the folder bench: for each group of loops a crate of the Rust and a static library of ours. The
# published sources stand in the folder NVX_SRC (default: shared/docs/src beside the repository), and are copied to target/ and
# never edited, as for the oracle.
cd "$(dirname "$0")"
exec_rs="$(cd "${NVX_SRC:-../../shared/docs/src}" && pwd)/nvx-rs/src/exec"
rm -rf target/exec
mkdir -p target
cp -r "$exec_rs" target/exec
chmod -R u+w target/exec
cp ../oracle/nvx/peer.rs target/exec/peer.rs
build() {
    rustc --edition 2024 -C opt-level=3 -C target-cpu=x86-64-v2 -C codegen-units=1 -C panic=abort --cap-lints warn -L target "$@"
}
build --crate-type rlib --crate-name room --out-dir target src/room.rs
linked="--extern room"
for name in calls output input frames adapter; do
    build --crate-type rlib --crate-name rust_$name --out-dir target --extern room src/rust/$name.rs
    linked="$linked --extern rust_$name"
done
for name in calls output input frames adapter; do
    (cd ../crates/bench_$name && rt lib) >&2
    linked="$linked -L ../crates/bench_$name/out -l static=bench_$name"
done
build $linked -o target/bench src/main.rs
