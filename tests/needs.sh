#!/usr/bin/env bash
# What the library needs of its surroundings: two functions of C, no writable data, and so much stack. Argument: the library.
set -euo pipefail
lib=${1:-${HOMVAITS_LIB:-$(dirname "$0")/../target/staticlib/libcapi.a}}
bound=8192      # bytes of stack for any call
by_value=656    # bytes of a state that a caller hands in by value; tick_row is lent its states
# functions that call themselves, and how often one call is there at most
declare -A times=()
readme=$(dirname "$0")/../README.md

fail() {
    echo "needs: $*" >&2
    exit 1
}
same() { # what, expected words, found words
    [ "$2" = "$3" ] || fail "$1: expected '$2', found '$3'"
}

calls="check finish layout layout_1 list margin move plan release start start_list tick tick_row"
same "undefined symbols" "memcpy memset" "$(nm -u "$lib" | awk 'NF == 2 { print $2 }' | sort -u | xargs)"
same "public symbols" "$(printf 'homvaits_%s\n' $calls | xargs)" "$(nm -g --defined-only "$lib" | awk 'NF == 3 { print $3 }' | sort -u | xargs)"
same "writable symbols" "" "$(nm --defined-only "$lib" | awk 'NF == 3 && $2 ~ /[bBcCdDgGsSuvVwW]/ { print $3 }' | xargs)"
same "writable sections" "" "$(readelf -SW "$lib" | sed -n 's/^ *\[ *[0-9]*\] *//p' | awk '$7 ~ /W/ && $5 !~ /^0+$/ { print $1 }' | xargs)"
echo "needs: memcpy and memset, no writable data"

# Stack, for every input: the frames of the code along its calls, with what lies below the last one (the red zone). What memcpy and
# memset use themselves is not in it.
declare -A frame below callees
name=
while read -r kind a b; do
    case $kind in
    name) name=$a frame[$name]=8 below[$name]=0 callees[$name]= ;;
    push) frame[$name]=$((frame[$name] + 8)) ;;
    sub) frame[$name]=$((frame[$name] + a)) ;;
    below) [ $((a)) -le "${below[$name]}" ] || below[$name]=$((a)) ;;
    call) callees[$name]+=" $a" ;;
    odd) fail "a stack frame of $name is not understood: $a $b" ;;
    esac
done < <(objdump -dr --no-show-raw-insn "$lib" | awk '
    /^[0-9a-f]+ <.*>:$/ { name = substr($2, 2, length($2) - 3); print "name", name; next }
    /R_X86_64_PLT32/ { sub(/^\.text\./, "", $3); sub(/-0x4$/, "", $3); print "call", $3; next }
    match($0, /-0x[0-9a-f]+\(%rsp/) { print "below", substr($0, RSTART + 1, RLENGTH - 6) }
    $2 == "push" { print "push"; next }
    $2 == "call" && $NF == "<" name ">" { print "call", name; next }
    $2 == "call" && $3 ~ /^\*/ { print "odd", $2, $3; next }
    $2 == "cmp" || $2 == "test" { next }
    $3 ~ /^\$0xffff.*,%rsp$/ { print "odd", $2, $3; next } # below zero
    $2 == "add" && $3 ~ /^\$0x[0-9a-f]+,%rsp$/ { next }
    $2 == "sub" && $3 ~ /^\$0x[0-9a-f]+,%rsp$/ { sub(/^\$/, "", $3); sub(/,.*/, "", $3); print "sub", $3; next }
    $3 ~ /,%rsp$/ || $2 ~ /^(enter|leave)/ { print "odd", $2, $3 }
')

depth() { # sets `deep` to the stack that a function uses
    local f=$1 g most here=1
    case $f in memcpy | memset) deep=8 && return ;; esac
    [ -n "${frame[$f]:-}" ] || fail "$f is called, and is not there"
    most=${below[$f]}
    for g in ${callees[$f]}; do
        if [ "$g" = "$f" ]; then
            here=${times[$f]:-}
            [ -n "$here" ] || fail "$f calls itself"
            continue
        fi
        depth "$g"
        [ "$deep" -le "$most" ] || most=$deep
    done
    deep=$((frame[$f] * here + most))
}
# what README says of each call, and of the size of all
declare -A said=()
while read -r call bytes; do said[$call]=${bytes//,/}; done < <(awk -F' *[|] *' '
    /^[|] check [|] plan [|]/ { for (i = 2; i < NF; i++) name[i] = $i; getline; getline; for (i = 2; i < NF; i++) print name[i], $i; exit }' "$readme")
said[layout_1]=${said[layout]:-}
for call in $calls; do
    depth "homvaits_$call"
    case $call in release | finish | tick) deep=$((deep + by_value)) ;; esac
    printf 'needs: homvaits_%-10s %5d bytes of stack at most\n' "$call" "$deep"
    [ "$deep" -le "$bound" ] || fail "homvaits_$call uses more than $bound bytes of stack"
    [ -n "${said[$call]:-}" ] || fail "README says nothing of the stack of $call"
    [ "$deep" -le "${said[$call]}" ] || fail "homvaits_$call uses $deep bytes of stack, and README says ${said[$call]}"
done
code=$(size -t "$lib" | awk 'END { print $1 }')
kib=$(sed -nE 's/.* It has less than ([0-9]+) KiB of code and constants.*/\1/p' "$readme")
[ -n "$kib" ] || fail "README says nothing of the size of code and constants"
[ "$code" -lt $((kib * 1024)) ] || fail "code and constants have $code bytes, and README says less than $kib KiB"
echo "needs: $code bytes of code and constants"
