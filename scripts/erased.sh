# Sourced by what packs packages of rust/ as they are in a release, with $top, the top of the checkout, and $work, a folder for what is temporary.

# Prints the folder in which the build script of the package $1 puts the Rust of the proved source.
erased_of() {
    cargo check --quiet --offline --locked --manifest-path "$top/rust/$1/Cargo.toml" --target-dir "$work/target" --message-format json |
        sed -nE "/\"build-script-executed\"/s|.*rust/$1#.*\"out_dir\":\"([^\"]*)\".*|\1/erased|p"
}

# Completes the package $1 in the folder $2, which has its src: adds that Rust, and a manifest outside the workspace, with a lock file. It needs no other package.
add_erased() {
    local its=$top/rust/$1 erased
    erased=$(erased_of "$1")
    cp -R "$erased" "$2/src"
    sed -e "/^include!/{r $erased/mod.rs" -e 'd}' "$its/src/erased.rs" > "$2/src/erased.rs"
    rm "$2/src/erased/mod.rs"
    awk 'FNR == NR { told[$1] = $0; next } sub(/[.]workspace = true$/, "") { $0 = told[$0] } /^.build-dependencies/, /^$/ { next }
        { sub("../../examples", "examples"); print }' "$top/rust/Cargo.toml" "$its/Cargo.toml" > "$2/Cargo.toml"
    [ "$1" = i_shape ] || sed -n '/^\[profile/,$p' "$top/rust/Cargo.toml" | cat <(echo) - <(printf '\n[workspace]\n') >> "$2/Cargo.toml"
    (cd "$2" && cargo generate-lockfile --quiet --offline)
}

# The crate for Rust in the folder $1, which isn't there: with the Rust that its build script leaves of the proved source, and so without that script. The example
# that it shares with C lies in it.
lay_crate() {
    mkdir "$1"
    cp -R "$top"/rust/i_shape/{README.md,examples,src,tests} "$top/LICENSE" "$1"
    cp "$top/examples/clean.rs" "$1/examples"
    add_erased i_shape "$1"
}
