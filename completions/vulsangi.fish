# Completions of vulsangi for fish. The install puts it into share/fish/vendor_completions.d.

function __vulsangi_languages
    vulsangi -L 2>/dev/null | string replace -r '  +.*' ''
end

function __vulsangi_themes
    vulsangi --list-themes --color never 2>/dev/null
end

complete -c vulsangi -s l -l language -x -a '(__vulsangi_languages)' -d 'The language, by its name or an extension'
complete -c vulsangi -l file-name -r -d 'The name of standard input'
complete -c vulsangi -l strict -d 'Refuse a file that is not UTF-8'
complete -c vulsangi -s n -l number -d 'Number the lines'
complete -c vulsangi -s r -l line-range -x -d 'Show these lines alone, as 3:9'
complete -c vulsangi -s H -l highlight-line -x -d 'Mark these lines, as 3:9'
complete -c vulsangi -s f -l format -x -a 'terminal html classes css latex' -d 'What to make'
complete -c vulsangi -s o -l output -r -d 'Write into this file'
complete -c vulsangi -l fragment -d 'Make the part alone, without the document'
complete -c vulsangi -l color -x -a 'auto always never' -d 'When to use colours'
complete -c vulsangi -l theme -r -a '(__vulsangi_themes)' -d 'The theme'
complete -c vulsangi -l light -r -a '(__vulsangi_themes)' -d 'The theme for light screens, in a style sheet'
complete -c vulsangi -l dark -r -a '(__vulsangi_themes)' -d 'The theme for dark screens, in a style sheet'
complete -c vulsangi -l grammars -x -a '(__fish_complete_directories)' -d 'A folder of grammars and themes'
complete -c vulsangi -s L -l list-languages -d 'List the languages'
complete -c vulsangi -l list-themes -d 'List the themes, each with a sample'
complete -c vulsangi -s h -l help -d 'Print a help'
complete -c vulsangi -s V -l version -d 'Print the version'
complete -c vulsangi -n '__fish_is_first_arg' -a convert -d 'Make a theme of one of another editor'
complete -c vulsangi -n '__fish_is_first_arg' -a check -d 'Look through grammars and themes'
complete -c vulsangi -n '__fish_is_first_arg' -a test -d 'Run tests of grammars'
complete -c vulsangi -n '__fish_is_first_arg' -a scopes -d 'Tell the scopes of a file or a place'
complete -c vulsangi -n '__fish_seen_subcommand_from check' -l explain -x -d 'Tell what a finding means'
complete -c vulsangi -n '__fish_seen_subcommand_from check' -s f -l format -x -a 'text json sarif' -d 'What to write'
