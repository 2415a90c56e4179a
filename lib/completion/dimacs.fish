# Completes the words of dimacs, dimacs-batch and dimacs-draw in fish, by what these print as help.

# What the usage has at the place of the word that is typed.
function __dimacs_place
    set -l words (commandline -opc)
    if test "$words[2]" = explain; and test (count $words) -gt 1
        set -e words[2]
    end
    set -l usage COMMAND
    if test (count $words) -gt 1
        set usage (dimacs help $words[2] 2>/dev/null | string match -rg '^Usage: dimacs (.*)' | string replace -ra '[][]' '' | string split ' ')
    end
    echo $usage[(count $words)]
end

function __dimacs_commands
    set -l but (contains -- explain (commandline -opc); and printf "explain\nhelp\n")
    dimacs help | string match -rg '^  ([a-z-]+) [[A-Z].*?  +(.*)' | while read -l name
        read -l about
        contains -- $name $but; or echo $name\t$about
    end
end

complete -c dimacs -f
complete -c dimacs -n 'test (__dimacs_place) = COMMAND' -a '(__dimacs_commands)'
complete -c dimacs -n 'test (__dimacs_place) = KIND' -a '(dimacs help convert | string match -rga "  ([a-z]+)  ")'
complete -c dimacs -n 'test (__dimacs_place) = --limit' -a --limit
complete -c dimacs -n 'not contains -- (__dimacs_place) COMMAND KIND --limit N ""' -F
complete -c dimacs-batch -a '(dimacs-batch --help | string match -rga "(--[a-z]+)")'
complete -c dimacs-draw -a '(dimacs-draw --help | string match -rga "(--[a-z]+)")'
