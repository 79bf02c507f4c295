# Each link and each source of the documents is there, and what readers ask is answered within two links from README.md.
. "$helpers/expect.sh"
. "$helpers/python.sh"

if has_python 'the links of the documents'; then
    run_script repository/answers.py "$top"

    # Wrong repositories, each of which one line of the script refuses.
    refused=$work/refused
    expect_told() {
        told=$(PYTHONPATH=$helpers python3 -B "$tests/repository/answers.py" "$refused" | grep -v '^ok ')
        [ "$told" = "$2" ] && pass "$1" || fail "$1" "it said '$told'"
    }
    spare='## Add a spare\n\n    $ gmbench do k2 insert --did 2 gm0 b.img\n\nIt is SYNCHRONIZING.\n'
    trust='## Which image may be trusted\n\nOne that is ACTIVE in `taste`.\n'
    written='**`gm_apply`**: carries out intents\n\n- `patch`: writes bytes over sectors\n'
    proved='## The redo: gm_apply\n\nDirt comes before data, and dirt before patches (`apply`).\n'
    changed='## A new refusal\n\n| its number | `gm_refusals`: `src/refusals.rt` |\n| its sentence | `gm_sentences` |\n'
    begin() {
        rm -rf "$refused"
        mkdir -p "$refused/docs" "$refused/crates/gm_refusals/src"
        : >"$refused/crates/gm_refusals/src/refusals.rt"
        printf '# One\n\nSee [use](docs/USE.md#add-a-spare), [proofs](docs/PROOF.md) and [how](CONTRIBUTING.md).\n' >"$refused/README.md"
        printf "# Use\n\n$spare$trust" >"$refused/docs/USE.md"
        printf "# Proofs\n\n$proved" >"$refused/docs/PROOF.md"
        printf "# How\n\nSee\n[rooms](docs/ROOMS.md) and [above](#how).\n\n$changed" >"$refused/CONTRIBUTING.md"
        printf "# Rooms\n\n$written" >"$refused/docs/ROOMS.md"
    }
    begin
    expect_told 'links and answers in order' ''
    far="failed two links from README.md at most:"
    all='README.md docs/USE.md docs/PROOF.md CONTRIBUTING.md docs/ROOMS.md'
    echo '# Use' >"$refused/docs/USE.md"
    printf '# One\n\nSee [use](docs/USE.md), [proofs](docs/PROOF.md) and [how](CONTRIBUTING.md).\n' >"$refused/README.md"
    expect_told 'a page that answers nothing any more' "$far how a spare is added: none of $all says it
$far which image is to be trusted: none of $all says it"
    begin
    sed -i 's/gm_sentences/gm_faults/' "$refused/CONTRIBUTING.md"
    expect_told 'an answer that lacks a word' "$far which files change for a new refusal: none of $all says it"
    begin
    printf "# Proofs\n\n## gm_apply\n\nNothing.\n\n## More\n\nAnd dirt before patches (\`apply\`).\n" >"$refused/docs/PROOF.md"
    expect_told 'an answer in two parts' "$far what is proved of a patch: none of $all says it"
    begin
    sed -i 's|docs/ROOMS.md|docs/NEAR.md|' "$refused/CONTRIBUTING.md"
    echo 'See [rooms](ROOMS.md).' >"$refused/docs/NEAR.md"
    expect_told 'an answer three links away' "$far which file writes the sectors of a patch: none of ${all%ROOMS.md}NEAR.md says it"
    begin
    echo 'See [more](docs/MORE.md), `[no](docs/link.md)` and [the web](https://localhost/docs).' >>"$refused/README.md"
    printf '\n    [no](docs/link.md)\n' >>"$refused/README.md"
    expect_told 'a link to a page that there is not' \
        'failed README.md, links lead somewhere: line 4: docs/MORE.md: there is no such file'
    begin
    echo 'See [the spare](../docs/USE.md#spare) and [up](../../README.md).' >>"$refused/docs/USE.md"
    expect_told 'links to a heading that there is not, and out of the repository' \
        'failed docs/USE.md, links lead somewhere: line 11: ../docs/USE.md#spare: there is no such heading
failed docs/USE.md, links lead somewhere: line 11: ../../README.md: there is no such file'
    begin
    echo 'It is in `src/{refusals,tests}.rt` and `proofs/MODULE/Answers.antt`.' >>"$refused/CONTRIBUTING.md"
    expect_told 'a source that there is not' \
        'failed CONTRIBUTING.md, the sources that it names are there: line 10: src/tests.rt'
    begin
    printf '## A b: `c_d`, (e)!\n\n## Two\n\n## Two\n\n[one](#a-b-c_d-e), [two](#two), [more](#two-1)\n' >>"$refused/docs/USE.md"
    expect_told 'anchors of headings' ''
fi
finish
