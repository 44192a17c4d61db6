#!/bin/sh
# Compares the table of tools/completion with the program: the line of usage, and which command takes which option; and
# looks at what bash and, where it is there, zsh make of the printed text.
set -u
root=$(CDPATH= cd -- "$(dirname -- "$0")/.." && pwd)
cd "$root" || exit 1
failed=0
passed=0

# Counts whether $2 is $3, as $1 tells.
expect() {
    if [ "$2" = "$3" ]; then
        passed=$((passed + 1))
    else
        failed=$((failed + 1))
        echo "$1: $2 in place of $3"
    fi
}

expect 'the line of usage' "$(tools/completion usage)" "$(./polypar 2>&1)"

# Each command with each option, where the program takes it: with an empty text, so that no other status is 1.
taken() {
    for command in $(tools/completion usage | cut -d ' ' -f 3 | tr '|' ' '); do
        arguments=
        [ "$command" != gen ] || arguments='chain 1 1'
        tools/completion table | cut -d ' ' -f 2- | sort -u | while read -r option value; do
            value=${value%%[.|]*}
            ./polypar "$command" $arguments "$option" $value </dev/null >/dev/null 2>&1
            [ $? -eq 1 ] || echo "$command $option"
        done
    done
}

expect 'options of commands' "$(tools/completion table | cut -d ' ' -f 1,2 | sort)" "$(taken | sort)"

# What bash offers behind the words $1.
offered() {
    bash -c 'eval "$(tools/completion bash)"; COMP_WORDS=($1 "$2") COMP_CWORD=$((${#COMP_WORDS[@]} - 1)); _polypar
        echo ${COMPREPLY[@]}' bash "$1" "$2"
}

expect 'a command' "$(offered polypar s)" schedule
expect 'an option' "$(offered 'polypar emit --tile 8' -)" --budget
expect 'a value' "$(offered 'polypar run --sync' '')" 'waves tiles'
expect 'a kind' "$(offered 'polypar gen' p)" product
if command -v zsh >/dev/null; then
    expect 'zsh reads its text' "$(tools/completion zsh | zsh -n 2>&1)" ''
fi
echo "$passed passed, $failed failed"
[ "$failed" -eq 0 ]
