# Shared by oracle/build and bench/build, which source it: a copy of the crystalorb source with the edits that every build of it needs.
# `tool` names the command in messages, `fresh` the folder of the copy.

fail() {
    echo "$tool: $*" >&2
    exit 1
}

# edit FILE LINES PATTERN SCRIPT: runs the sed SCRIPT on the copy of FILE, after checking that
# PATTERN is found on exactly LINES lines.
edit() {
    local file=$fresh/src/$1 lines=$2 pattern=$3 script=$4 found
    found=$(grep -c -e "$pattern" "$file" || true)
    [ "$found" = "$lines" ] || fail "in $1 the pattern '$pattern' is on $found lines, not on $lines"
    sed -i -e "$script" "$file"
}

# derive FILE ITEM TRAIT: derives TRAIT for the type whose declaration begins with ITEM.
derive() {
    edit "$1" 1 "^$2" "s/^$2/#[derive($3)]\n&/"
}

# copy_source SOURCE: the copy, the edits without which it does not build or does not follow 01, and the files that the source lacks.
copy_source() {
    [ -f "$1/src/client.rs" ] || fail "no crystalorb source at $1 (src/client.rs is missing)"
    rm -rf "$fresh"
    mkdir -p "$fresh"
    cp -R "$1/src" "$fresh/src"
    chmod -R u+w "$fresh"

    # Types used as const parameters.
    derive fixed_timestepper.rs 'pub(crate) enum TerminationCondition' std::marker::ConstParamTy
    derive world/simulation.rs 'pub(crate) enum InitializationType' std::marker::ConstParamTy

    # A float sum that begins at +0.0.
    edit clocksync.rs 1 'sum::<f64>()' 's/sum::<f64>()/fold(0.0, |total, sample| total + sample)/'

    [ ! -e "$fresh/src/world.rs" ] || fail "the source has a src/world.rs: the hand-made one is not needed"
    cat >"$fresh/src/world.rs" <<'END'
//! The world and what surrounds it (written for the build; the original file is not at hand).

mod display_state;
mod simulation;
mod world_trait;

pub use display_state::{DisplayState, Tweened};
pub(crate) use simulation::{InitializationType, Simulation};
pub use world_trait::World;
END
    : >"$fresh/README.markdown"
}

# manifest SHIMS [DEPENDENCY]: the copy's Cargo.toml, with the path of the shims and a dependency more.
manifest() {
    cat >"$fresh/Cargo.toml" <<END
[package]
name = "crystalorb"
version = "0.0.0"
edition = "2021"
publish = false

[dependencies]
${2:+$2
}serde = { path = "$1/serde" }
take_mut = { path = "$1/take_mut" }
tracing = { path = "$1/tracing" }
END
}

# keep_times PREPARED: the copy takes the place of PREPARED, unless nothing in it changed, so that cargo does not build it again.
keep_times() {
    if diff -rq "$fresh" "$1" >/dev/null 2>&1; then
        rm -rf "$fresh"
    else
        rm -rf "$1"
        mv "$fresh" "$1"
    fi
}
