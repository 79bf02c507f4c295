# Lines of a batch made at random, held against a model of their words.
. "$helpers/bench.sh"
. "$helpers/python.sh"

# ---- lines of a batch that a generator makes, held against a plain model of their words

# Commands with something that is wrong, numbers at their limits, options twice, any bytes, lengths about 131,072, and other
# spellings of the first line.
if has_python 'lines that are made at random'; then
    fresh_bench lines
    run_script hostile/lines.py "$gmbench" "$bench" 20000
    at_bench status
    expect 'the mirror of the first line stands' 0 "$of_one" ''
    expect_images 'no image is changed' fresh bare
fi
finish
