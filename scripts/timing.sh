# The program of the package speed, over the library as it is; the scripts that run it source this.

scripts/archive capi >/dev/null

speed() {
    cargo run --offline --quiet --release --manifest-path speed/Cargo.toml --target-dir target/speed -- "$@"
}
