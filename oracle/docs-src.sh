# For the scripts to read: ZKIR_SRC is the path of docs/src, from the repository's root. Without the
# files there is nothing to compare with, and the script ends.
: "${ZKIR_SRC:=../shared/docs/src}"
export ZKIR_SRC
if ! [ -d "$ZKIR_SRC" ]; then
    echo "docs/src is not at hand: comparison skipped"
    exit 0
fi
