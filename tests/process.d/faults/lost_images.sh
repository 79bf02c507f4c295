# Each command, stopped before each of its writes, and then each image lost.
. "$helpers/bench.sh"
. "$helpers/python.sh"

# ---- images that are lost for good while something is pending

# Into the program a library is preloaded whose writes and syncs fail from one on. Each of the fourteen commands is stopped
# before each of its writes; then each image is lost, and given up; and that is stopped in its turn. The counts are printed.
run_stopped_calls 'images that are lost' faults/lost_images.py
finish
