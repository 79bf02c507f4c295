# Patches stopped at each write and sync, and what each image claims then.
. "$helpers/bench.sh"
. "$helpers/python.sh"

# ---- patches that are stopped at each write and sync

run_stopped_calls 'patches that are stopped' faults/patches.py
finish
