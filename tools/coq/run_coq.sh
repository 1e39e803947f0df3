#!/bin/bash
# Has Coq judge the derivations out of textbooks of crates/file_trials/data, and compares with the answers that `check` has to
# print for them (crates/file_trials/stdout, in target/coq/expected.txt). Status 1 on any surprise.
#
# Accepted: there is a term, coqc takes it, it is closed under the global context, it is of the type
# that expected.txt's sequent says (put into Coq's words here by sed, not by to_coq.py), and `dne` is a
# hypothesis of it in mode C and does not occur in the file in mode I.
# Refused: there is no term, or coqc fails, for its types or its names, at the record that expected.txt says.
here=$(cd "$(dirname "$0")" && pwd)
cd "$here/../../crates/file_trials/data" || exit 1
export LC_ALL=C
build=../../../target/coq
rm -rf "$build"
mkdir -p "$build"
grep -vE '^(check|weigh)_[0-9]' ../stdout | sort > "$build/expected.txt"
began=$(date +%s)
accepted_i=0 accepted_c=0 refused_coq=0 refused_none=0 surprises=0 files=0
tab=$'\t'

coq_of() { printf '(%s)' "$1" | sed -e 's/>/ -> /g; s/&/ \/\\ /g; s/|/ \\\/ /g; s/~/~ /g; s/#/False/g'; }
say() { printf '%-40s %s\n' "$1" "$2"; }
surprise() { surprises=$((surprises + 1)); say "$1" "SURPRISE: $2"; }

statement() { # NAME OK MODE LINES CONCLUSION PREMISE..: the sequent as a type
    local name=$1 mode=$3 conclusion=$5 letters premise
    shift 5
    letters=$(grep "^[PAS]$tab" "$name.proof" | cut -f2 | grep -o '[a-z]' | sort -u | tr '\n' ' ')
    printf 'Check (%s : ' "$name"
    [ -n "$letters" ] && printf 'forall %s: Prop, ' "$letters"
    [ "$mode" = C ] && printf '(forall P : Prop, ~ ~ P -> P) -> '
    for premise; do printf '%s -> ' "$(coq_of "$premise")"; done
    printf '%s).\n' "$(coq_of "$conclusion")"
}

if ! ls *.proof | grep -vE '^check_[0-9]' | cmp -s - <(cut -f1 "$build/expected.txt"); then surprise expected.txt "not the files that there are, sorted"; fi

while IFS= read -r row; do
    IFS=$tab read -r -a answer <<< "$row"
    file=${answer[0]} name=${answer[0]%.proof} v=$build/${answer[0]%.proof}.v
    log=$build/$name.log
    files=$((files + 1))
    python3 "$here/to_coq.py" "$file" > "$v" 2> "$log"
    status=$?
    if [ $status -eq 3 ]; then
        if [ "${answer[1]}" = NO ]; then
            refused_none=$((refused_none + 1)); say "$name" "refused ${answer[*]:2}: no term, $(cat "$log")"
        else surprise "$name" "accepted, and no term: $(cat "$log")"; fi
        continue
    elif [ $status -ne 0 ]; then surprise "$name" "to_coq.py ended with $status"; continue; fi
    if [ "${answer[1]}" = OK ]; then statement "$name" "${answer[@]:1}" >> "$v"; fi
    coqc -q "$v" > "$log" 2>&1
    status=$?
    if [ "${answer[1]}" = OK ]; then
        if [ $status -ne 0 ]; then surprise "$name" "accepted, and Coq fails: $(grep -A3 -m1 Error: "$log" | tr -s '\n ' ' ')"
        elif ! grep -qx 'Closed under the global context' "$log"; then surprise "$name" "not closed under the global context"
        elif [ "${answer[2]}" = I ] && grep -qw dne "$v"; then surprise "$name" "constructive, with dne"
        elif [ "${answer[2]}" = C ] && ! head -1 "$v" | grep -qF '(dne : forall P : Prop, ((P -> False) -> False) -> P)'; then surprise "$name" "classical, without dne"
        elif [ "${answer[2]}" = I ]; then accepted_i=$((accepted_i + 1)); say "$name" "typed, constructive"
        else accepted_c=$((accepted_c + 1)); say "$name" "typed, from dne"; fi
    else
        at=$(sed -n 's/^File ".*", line \([0-9]*\),.*/\1/p' "$log" | head -1)
        why=$(sed -n '/^Error:/,$p' "$log" | tr -s '\n ' ' ' | sed 's/^Error: //; s/In environment.* The term "/The term "/; s/ $//')
        if [ $status -eq 0 ]; then surprise "$name" "refused, and Coq takes it"
        elif ! grep -qE 'has type|was not found|Illegal application|Found a constructor of inductive type' <<< "$why"; then surprise "$name" "Coq fails otherwise: $why"
        elif [ "$at" != "${answer[2]}" ]; then surprise "$name" "Coq fails at $at, and not at record ${answer[2]}"
        else refused_coq=$((refused_coq + 1)); say "$name" "refused ${answer[*]:2}: Coq fails at $at, $why"; fi
    fi
done < "$build/expected.txt"

printf '\n%d files: %d typed constructively, %d typed from dne; %d refused by Coq, %d without a term; %d surprises; %d seconds\n' \
    $files $accepted_i $accepted_c $refused_coq $refused_none $surprises $(($(date +%s) - began))
[ $surprises -eq 0 ]
