# Last sectors made at random, held against a second reading of the format.
. "$helpers/bench.sh"
. "$helpers/python.sh"

# ---- last sectors that a generator makes, held against a second reading of the format

# Of each version: sound ones, ones of which a bit is another, fields at their limits, fields that are wrong under the hash
# that they have, fields of one version under the number of another, and any bytes.
case ${HOSTILE:-some} in
    all) tasted=100000 dumped=5000 ;;
    *) tasted=30000 dumped=600 ;;
esac
if has_python 'last sectors that are made at random'; then
    run_script hostile/sectors.py "$gmbench" "$work" $tasted $dumped
fi
finish
