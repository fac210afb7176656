# Sets ZALDRIF_LIB and ZALDRIF_C_LIB, the two archives to link, unless both are given already:
# the library, and the C archive of the toolchain. To be sourced in the top folder.
if [[ -z ${ZALDRIF_LIB:-} || -z ${ZALDRIF_C_LIB:-} ]]; then
    (cd crates/zaldrif && rt lib) >&2
    ZALDRIF_LIB=crates/zaldrif/out/libzaldrif.a
    ZALDRIF_C_LIB=$(dirname "$(rt doc)")/c/liblibc_c.a
fi
for archive in "$ZALDRIF_LIB" "$ZALDRIF_C_LIB"; do
    [[ -f $archive ]] || { echo "no such archive: '$archive'" >&2; exit 1; }
done

# one_object OUT: both archives as one object that shows the names of our functions only. A Rust
# program links this, so that a standard library inside the archives cannot meet its own.
one_object() {
    ld -r --force-group-allocation -u zaldrif_run_day -u zaldrif_run_flat_day -o "$1" \
        --start-group "$ZALDRIF_LIB" "$ZALDRIF_C_LIB" --end-group
    objcopy --keep-global-symbol=zaldrif_run_day --keep-global-symbol=zaldrif_run_flat_day "$1"
}
