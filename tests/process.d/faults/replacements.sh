# Replacements stopped at each write and sync, which go on from there.
. "$helpers/bench.sh"
. "$helpers/python.sh"

# ---- replacements that are stopped at each write and sync

run_stopped_calls 'replacements that are stopped' faults/replacements.py
finish
