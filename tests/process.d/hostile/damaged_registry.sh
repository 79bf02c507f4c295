# A registry with bytes that are others, without pages, or cut.
. "$helpers/bench.sh"
. "$helpers/python.sh"

# ---- a registry of which bytes are others, pages are gone, or the end is

# It has a mirror of two components that is filled, with nothing pending; or one of which a component is to be taken out.
# Whatever is done to its file, an opening ends with F2, F5 or F6, or well and with the records that SQLite reads there; no image
# is changed but by a write that SQLite finds to be pending.
case ${HOSTILE:-some} in
    all) stride=1 ;;
    *) stride=97 ;;
esac
if has_python 'registries that are damaged'; then
    if python3 -c 'import sqlite3' 2>/dev/null; then
        fresh_bench damaged
        batch "$label${insert}k3 advance gm0 b.img\n"
        run_script hostile/damaged_registry.py "$gmbench" "$bench" $stride 'a registry'
        stopped_remove damaged-pending
        run_script hostile/damaged_registry.py "$gmbench" "$bench" $stride 'a registry with something pending'
    else
        skip 'registries that are damaged' "there is no SQLite for python3 here"
    fi
fi
finish
