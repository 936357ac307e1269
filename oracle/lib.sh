# What the scripts here share. They run in the folder oracle and build in its folder target.
# The published sources stand in the folder NVX_SRC (default: shared/docs/src beside the repository).
cd "$(dirname "$0")"
mkdir -p target
exec_rs="$(cd "${NVX_SRC:-../../shared/docs/src}" && pwd)/nvx-rs/src/exec"

# Lays out the library in target/$1: the published files as they are, ours beside them, with the
# time of nvx/$2.rs.
lay_out() {
    rm -rf "target/$1"
    mkdir -p "target/$1"
    cp -r "$exec_rs" "target/$1/exec"
    chmod -R u+w "target/$1/exec"
    cp nvx/peer.rs "target/$1/exec/peer.rs"
    cp nvx/lib.rs "target/$1/lib.rs"
    cp "nvx/$2.rs" "target/$1/time.rs"
    # The one change, with u64 time alone: Instant comes from nvx/nanos.rs.
    if [ "$2" = nanos ]; then
        sed -i 's/^use std::time::/use crate::time::/' "target/$1/exec/mod.rs" "target/$1/exec/runner.rs"
    fi
}

rust() {
    rustc --edition 2024 -O -C target-cpu=x86-64-v2 -C codegen-units=1 -C strip=symbols "$@"
}

# Compiles the library in target/$1, and over it the program target/$2, with the flags in $3, if any.
compile() {
    rust --crate-type rlib --crate-name nvx --cap-lints allow \
        -o "target/$1/libnvx.rlib" "target/$1/lib.rs"
    rust --extern "nvx=target/$1/libnvx.rlib" ${3-} -o "target/$2" src/main.rs
}

# Compiles one of our own programs, src/$1.rs.
tool() {
    rust -o "target/$1" "src/$1.rs"
}

# Parts the cards that are made to be read, by their names: answered are those that the Rust answers,
# defined those that it does not, as their smallest grant, the last of 14 fields, is another than 1.
part_read() {
    answered= defined=
    for card in ../examples/*.card cards/*.card defined/*.card; do
        if awk -F , 'NR == 1 { exit NF == 14 && $14 != 1 }' "$card"; then
            answered="$answered $card"
        else
            defined="$defined $card"
        fi
    done
}

# The recorded sample is the standard input and output of the program conformance: near cards first,
# as many as sample.seeds names, then far ones, those of part_read that the Rust answers among them.
# Parts these into target/sample: near.cards, far.cards, their answers.
part_sample() {
    mkdir -p target/sample
    part_read
    set -- $answered
    near=$(grep -c '^near ' sample.seeds)
    both=$(($(wc -l <sample.seeds) + $#))
    for kind in cards answers; do
        [ $kind = cards ] && from=stdin || from=stdout
        LC_ALL=C awk -v near="$near" -v both="$both" -v kind=$kind '
            ended < both { print >("target/sample/" (ended < near ? "near." : "far.") kind) }
            $0 == "----" { ended++ }
        ' "../crates/conformance/$from"
    done
}
