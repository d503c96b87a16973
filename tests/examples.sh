#!/usr/bin/env bash
# The commands of the README on the shipped examples, over real files and standard output.
set -u
cd "$(dirname "$0")/.." || exit 1
passed=0
failed=0
expect() {
    local want_status=$1 want=$2
    shift 2
    local got status
    got=$(./tagset "$@" 2>/dev/null)
    status=$?
    if [ "$status" -eq "$want_status" ] && [ "$got" = "$want" ]; then
        passed=$((passed + 1))
    else
        failed=$((failed + 1))
        echo "failed: tagset $*: status $status, output: $got"
    fi
}
# The lines around the certificate of a comparison; the whole output, as a certificate, is verified with this claim.
output=$(mktemp answer-XXXXXX)
trap 'rm -f "$output"' EXIT
expect_compared() {
    local want_status=$1 want=$2 claim=$3 around status
    shift 3
    ./tagset compare "$@" > "$output" 2>/dev/null
    status=$?
    around=$(sed '/^certificate /,/^end$/d' "$output")
    if [ "$status" -eq "$want_status" ] && [ "$around" = "$want" ] &&
        [ "$(./tagset verify "$output" "${@:1:4}")" = "$claim" ]; then
        passed=$((passed + 1))
    else
        failed=$((failed + 1))
        echo "failed: tagset compare $*: status $status, output: $(cat "$output")"
    fi
}
some=$'subset\ndocuments some'
expect_compared 1 $'not subset\nabove 0\nbroken p content' 'certified at least 1' - examples/first.dtd - examples/second.dtd r 0
expect_compared 1 $'not subset\nleast 3\nbroken p content\narticle\n<r><p><xref/></p></r>' 'certified at least 3' \
    - examples/first.dtd - examples/second.dtd r 100
expect_compared 0 "$some" 'certified subset' - examples/second.dtd - examples/first.dtd r 100
expect 2 'refused E40 RootUndeclared - 0 article' compare - examples/first.dtd - examples/second.dtd article 0
expect 2 'refused E10 ModuleAbsent examples/no.dtd 0' compare - examples/no.dtd - examples/second.dtd r 0
expect 3 'usage'
house=examples/house
expect 0 $'ok\nelements 26\nattributes 16\nentities 4\nnotations 2' check $house/catalog.txt $house/house.dtd
expect 0 $'ok\nelements 29\nattributes 16\nentities 4\nnotations 2' check - $house/base.dtd
expect 0 "$(cat $house/flat.dtd)" flatten $house/catalog.txt $house/house.dtd
expect 0 "$(cat $house/flat.dtd)" flatten - $house/flat.dtd
expect_compared 0 "$some" 'certified subset' $house/catalog.txt $house/phrases.dtd - $house/base-phrases.dtd title 0
expect_compared 1 $'not subset\nabove 0\nbroken title content' 'certified at least 1' \
    - $house/base-phrases.dtd $house/catalog.txt $house/phrases.dtd title 0
expect_compared 1 $'not subset\nabove 0\nbroken front content' 'certified at least 1' \
    $house/catalog.txt $house/house.dtd - $house/base.dtd article 0
expect_compared 1 'not subset
least 10
broken front content
article
<article><front><journal><journal-id type="issn"/></journal><title/><author><surname/></author><abstract><p/></abstract></front><body/></article>' \
    'certified at least 10' $house/catalog.txt $house/house.dtd - $house/base.dtd article 100
expect_compared 1 'not subset
least 6
broken article attribute article-type
article
<article article-type=""><front><journal><journal-id type="issn"/></journal><title/></front><body/></article>' \
    'certified at least 6' - $house/base.dtd $house/catalog.txt $house/house.dtd article 100
expect_compared 1 $'not subset\nabove 5\nbroken front content' 'certified at least 6' \
    - $house/base.dtd $house/catalog.txt $house/house.dtd article 5
expect_compared 0 "$some" 'certified subset' $house/catalog.txt $house/house.dtd - $house/flat.dtd article 100
expect 1 $'differs front content\nuseful 22 differs 1' report $house/catalog.txt $house/house.dtd - $house/base.dtd article
expect 1 'differs front content
differs title content
differs p content
differs reference content
differs article attribute article-type
useful 25 differs 5' report - $house/base.dtd $house/catalog.txt $house/house.dtd article
of_house=($house/catalog.txt $house/house.dtd)
expect 0 'valid' validate "${of_house[@]}" article $house/valid.xml
expect 1 'invalid 4 journal-id missing type
invalid 5 title content
invalid 9 abstract content
invalid 9 abstract text
invalid 12 graphic value format
invalid 13 fig content
invalid 13 fig id id f1
invalid 15 caption undeclared
invalid 18 reference idref see r2' validate "${of_house[@]}" article $house/faulty.xml
expect 0 "$(cat $house/filled.xml)" fill "${of_house[@]}" $house/valid.xml
expect 2 'refused E10 ModuleAbsent no.xml 0' fill "${of_house[@]}" no.xml
expect 0 'least 10
<article><front><journal><journal-id type="issn"/></journal><title/><author><surname/></author><abstract><p/></abstract></front><body/></article>' least $house/catalog.txt $house/house.dtd article 100
expect 0 'above 9' least $house/catalog.txt $house/house.dtd article 9
expect 0 'certified subset' verify examples/subset.txt - examples/second.dtd - examples/first.dtd
expect 0 'certified at least 3' verify examples/not-subset.txt - examples/first.dtd - examples/second.dtd
expect 2 'refused E70 CertMalformed examples/not-subset.txt 26' verify examples/not-subset.txt - examples/second.dtd - examples/first.dtd
expect 0 $'elements 1000\nself subset\npairs 2997\nvariant least 1000' work 1000
./tagset compare - examples/first.dtd - examples/second.dtd r 0 > /dev/full 2>/dev/null
if [ $? -eq 5 ]; then passed=$((passed + 1)); else failed=$((failed + 1)); echo "failed: a full device is not status 5"; fi
echo "$passed passed, $failed failed"
[ "$failed" -eq 0 ]
