# Completions of chord for fish: put this file into ~/.config/fish/completions. They are what the
# program's help says.

function __chord_words
    set -l commands
    for word in (commandline -opc)[2..]
        string match -qr '^(-|[0-9])' -- $word; or set -a commands $word
    end
    chord $commands --help 2> /dev/null |
        sed -n -e '/^Commands:/,/^$/s/^  \([a-z]\+\) .*/\1/p' -e 's/^ .*\(--[a-z-]\+\).*/\1/p'
end

complete -c chord -f -a '(__chord_words)'
complete -c chord -l plan -r -F
