# What README, docs/USE.md and docs/REFERENCE.md show, typed and compared.
. "$helpers/expect.sh"
. "$helpers/python.sh"

# ---- what the pages show is what is printed

if has_python 'the sessions of the pages'; then
    run_script words/sessions.py "$gmbench" "$top"
fi
finish
